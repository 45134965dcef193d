ds = tabularTextDatastore('a.csv', 'TextscanFormats', {'%f'}, 'ReadSize', 'file');
r = mapreduce(ds, @m, @q);
s = readall(r)
t = gather(r)

function m(data, ~, store)
  add(store, 1, sum(data.x));
end
function q(key, values, out)
  add(out, key, getnext(values));
end
