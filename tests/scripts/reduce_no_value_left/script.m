ds = tabularTextDatastore('a.csv', 'TextscanFormats', {'%f'}, 'ReadSize', 1);
r = mapreduce(ds, @m, @q)
function m(data, ~, store)
  add(store, 1, numel(data.x));
end
function q(key, values, out)
  x = getnext(values);
  add(out, key, x);
  x = getnext(values);
  x = getnext(values);
  x = getnext(values);
end
