ds = tabularTextDatastore('a.csv', 'TextscanFormats', {'%f'}, 'ReadSize', 1);
r = mapreduce(ds, @m, @q)
function m(data, ~, store)
  n = 2;
  for k = 1:n
    n = n + 5;
  end
  add(store, 1, n);
end
function q(key, values, out)
  while hasnext(values)
    add(out, key, getnext(values));
  end
end
