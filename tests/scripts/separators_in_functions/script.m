ds = tabularTextDatastore('a.csv', 'TextscanFormats', {'%f'}, 'ReadSize', 1);
r = mapreduce(ds, @m, @q)
function m(data, ~, store)
  y = 1, z = 2; ;, w = 3
  if y, z = 5, else z = 6; end, add(store, 1, z)
end
function q(key, values, out)
  for k = 1:2, add(out, k, k), end
end
