ds = tabularTextDatastore('a.csv', 'TextscanFormats', {'%f'}, 'ReadSize', 1);
r = mapreduce(ds, @m, @q)
v = r.Value

function m(data, ~, store)
  add(store, 1, intmax('uint64'));
  add(store, 2, intmin('uint64'));
  add(store, 3, uint64(data.x(1)));
  add(store, 4, intmax('uint64') + 1);
end
function q(key, values, out)
  while hasnext(values)
    add(out, key, getnext(values));
  end
end
