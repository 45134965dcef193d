ds = tabularTextDatastore('a.csv', 'TextscanFormats', {'%f'}, 'ReadSize', 1);
r = mapreduce(ds, @m, @q)
function m(data, ~, store)
  k = 7;
  for k = 4:2
    x = 1;
  end
  add(store, 1, k);
end
function q(key, values, out)
  while hasnext(values)
    add(out, key, getnext(values));
  end
end
