ds = tabularTextDatastore('a.csv', 'TextscanFormats', {'%f'}, 'ReadSize', 1);
r = mapreduce(ds, @m, @q);
w = groupsummary(r, 'Key', 'sumnative', 'Value')

function m(data, ~, store)
  add(store, 1, true);
end
function q(key, values, out)
  add(out, key, getnext(values));
end
