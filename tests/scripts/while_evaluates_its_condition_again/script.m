ds = tabularTextDatastore('a.csv', 'TextscanFormats', {'%f'}, 'ReadSize', 1);
r = mapreduce(ds, @m, @q)
function m(data, ~, store)
  n = 3;
  while n
    n = n - 1;
  end
  add(store, 1, n);
end
function q(key, values, out)
  while hasnext(values)
    add(out, key, getnext(values));
  end
end
