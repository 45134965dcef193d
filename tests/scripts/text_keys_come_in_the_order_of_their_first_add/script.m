ds = tabularTextDatastore('a.csv', 'TextscanFormats', {'%q'}, 'ReadSize', 1);
r = mapreduce(ds, @m, @q)
function m(data, ~, store)
  add(store, data.x(1), 1);
end
function q(key, values, out)
  add(out, key, getnext(values));
end
