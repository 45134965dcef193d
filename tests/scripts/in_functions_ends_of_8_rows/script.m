ds = tabularTextDatastore('a.csv', 'TextscanFormats', {'%f'}, 'ReadSize', 'file');
r = mapreduce(ds, @m, @q)
function m(data, ~, store)
  add(store, 1, numel(head(data.x)));
  h = tail(data.x);
  add(store, 2, h(1));
end
function q(key, values, out)
  while hasnext(values)
    add(out, key, getnext(values));
  end
end
