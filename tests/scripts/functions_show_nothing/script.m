ds = tabularTextDatastore('a.csv', 'TextscanFormats', {'%f'}, 'ReadSize', 1);
r = mapreduce(ds, @m, @q)
function m(data, ~, store)
  y = 1
  add(store, 1, y)
  z = data
end
function q(key, values, out)
  x = key
  add(out, key, x)
end
