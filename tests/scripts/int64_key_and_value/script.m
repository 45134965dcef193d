ds = tabularTextDatastore('a.csv', 'TextscanFormats', {'%d64'}, 'ReadSize', 1);
r = mapreduce(ds, @m, @q)
function m(data, ~, store)
  x = data.x(1);
  add(store, x, -x);
end
function q(key, values, out)
  add(out, key, getnext(values));
end
