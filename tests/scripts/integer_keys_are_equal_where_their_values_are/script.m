ds = tabularTextDatastore('a.csv', 'TextscanFormats', {'%u64'}, 'ReadSize', 1);
r = mapreduce(ds, @m, @q)
function m(data, ~, store)
  add(store, data.x(1), 1);
end
function q(key, values, out)
  n = 0;
  while hasnext(values)
    n = n + getnext(values);
  end
  add(out, key, n);
end
