ds = tabularTextDatastore('a.csv', 'TextscanFormats', {'%f'}, 'ReadSize', 1);
r = mapreduce(ds, @m, @q)
function m(data, ~, store)
  if data.x(1) == 2
    y = 1 ./ 0;
    add(store, 'a', 1);
  end
  add(store, 1, 1);
end
function q(key, values, out)
  while hasnext(values)
    add(out, key, getnext(values));
  end
end
