ds = tabularTextDatastore('a.csv', 'TextscanFormats', {'%d32'}, 'ReadSize', READSIZE);
r = mapreduce(ds, @bins, @count)
n = sum(r.Value)
k = r.Key(2)
function bins(data, ~, store)
  for k = 1:height(data)
    add(store, idivide(data.x(k), 10, 'floor'), 1);
  end
end
function count(key, values, out)
  n = 0;
  while hasnext(values)
    n = n + getnext(values);
  end
  add(out, key, n);
end
