ds = tabularTextDatastore('a.csv', 'TextscanFormats', {'%f'}, 'ReadSize', 'file');
r = mapreduce(ds, @m, @q)
function m(data, ~, store)
  h = head(data.x, 2);
  add(store, 1, sum(h));
  h = tail(data.x, 1);
  add(store, 2, h(1));
  u = unique(data.x);
  add(store, 3, numel(u));
  add(store, 4, u(1));
  add(store, 5, numel(head(data.x, 0)));
  add(store, 6, height(head(data, 2)));
  add(store, 7, numel(head(data.x)));
end
function q(key, values, out)
  while hasnext(values)
    add(out, key, getnext(values));
  end
end
