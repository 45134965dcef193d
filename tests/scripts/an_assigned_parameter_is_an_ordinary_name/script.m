ds = tabularTextDatastore('a.csv', 'TextscanFormats', {'%f'}, 'ReadSize', 1);
r = mapreduce(ds, @m, @q)
function m(data, info, store)
  info = 5;
  add(store, 1, info);
end
function q(key, values, out)
  while hasnext(values)
    add(out, key, getnext(values));
  end
end
