ds = tabularTextDatastore('a.csv', 'TextscanFormats', {'%f'}, 'ReadSize', 1);
r = mapreduce(ds, @m, @q);
k = r.Key
v = r.Value

function m(data, ~, store)
  add(store, int8(5), 'v');
end
function q(key, values, out)
  add(out, key, getnext(values));
end
