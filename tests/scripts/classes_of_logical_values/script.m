ds = tabularTextDatastore('a.csv', 'TextscanFormats', {'%f'}, 'ReadSize', 1);
r = mapreduce(ds, @m, @q);
k = r.Key
v = r.Value
w = groupsummary(r, 'Value', 'nnz', 'Key')
u = groupsummary(r, 'Key', 'sum', 'Value')

function m(data, ~, store)
  add(store, uint64(5), data.x(1) > 0);
end
function q(key, values, out)
  add(out, key, getnext(values));
end
