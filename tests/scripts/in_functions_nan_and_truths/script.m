ds = tabularTextDatastore('a.csv', 'TextscanFormats', {'%f'}, 'ReadSize', 'file');
r = mapreduce(ds, @m, @q)
function m(data, ~, store)
  add(store, 1, NaN);
  add(store, 2, double(true));
  add(store, 3, double(false));
end
function q(key, values, out)
  while hasnext(values)
    add(out, key, getnext(values));
  end
end
