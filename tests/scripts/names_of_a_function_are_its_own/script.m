y = 7;
ds = tabularTextDatastore('a.csv', 'TextscanFormats', {'%f'}, 'ReadSize', 1);
r = mapreduce(ds, @m, @q)
y

function m(data, ~, store)
  add(store, 1, 1);
end
function q(key, values, out)
  x = 1;
  add(out, key, x);
end
