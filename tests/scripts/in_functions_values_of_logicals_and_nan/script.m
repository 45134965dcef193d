ds = tabularTextDatastore('a.csv', 'TextscanFormats', {'%f'}, 'ReadSize', 'file');
r = mapreduce(ds, @m, @q)
function m(data, ~, store)
  add(store, 1, isnan(NaN));
  add(store, 2, logical(0));
  add(store, 3, logical(7));
  add(store, 4, any(data.x > 2));
  add(store, 5, all(data.x > 2));
  add(store, 6, any(data.x > 5));
  add(store, 7, all(data.x > 0));
end
function q(key, values, out)
  while hasnext(values)
    add(out, key, getnext(values));
  end
end
