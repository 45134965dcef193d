ds = tabularTextDatastore('a.csv', 'TextscanFormats', {'%f'}, 'ReadSize', 1);
r = mapreduce(ds, @m, @q)
function m(data, ~, store)
  for k = 4:4
    add(store, 1, k);
  end
  add(store, 1, k .* 10);
end
function q(key, values, out)
  while hasnext(values)
    add(out, key, getnext(values));
  end
end
