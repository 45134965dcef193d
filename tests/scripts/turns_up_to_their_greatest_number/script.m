ds = tabularTextDatastore('a.csv', 'TextscanFormats', {'%f'}, 'ReadSize', 1);
r = mapreduce(ds, @m, @q)
function m(data, ~, store)
  for k = 1:16777215
    n = 1;
  end
  add(store, 1, k);
end
function q(key, values, out)
  while hasnext(values)
    add(out, key, getnext(values));
  end
end
