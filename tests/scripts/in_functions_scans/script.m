ds = tabularTextDatastore('a.csv', 'TextscanFormats', {'%f'}, 'ReadSize', 'file');
r = mapreduce(ds, @m, @q)
function m(data, ~, store)
  c = cumsum(data.x);
  add(store, 1, c(3));
  c = cummin(data.x);
  add(store, 2, c(3));
  c = cummax(data.x);
  add(store, 3, c(2));
  add(store, 4, c(3));
end
function q(key, values, out)
  while hasnext(values)
    add(out, key, getnext(values));
  end
end
