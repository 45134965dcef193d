ds = tabularTextDatastore('a.csv', 'TextscanFormats', {'%f'}, 'ReadSize', 'file');
r = mapreduce(ds, @m, @q)
function m(data, ~, store)
  hasnext = data.x > 1;
  k = 1;
  while hasnext(k)
    k = k + 1;
    add(store, 1, k);
  end
  add(store, 1, k);
end
function q(key, values, out)
  while hasnext(values)
    add(out, key, getnext(values));
  end
end
