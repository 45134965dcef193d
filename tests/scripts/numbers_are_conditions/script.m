ds = tabularTextDatastore('a.csv', 'TextscanFormats', {'%f'}, 'ReadSize', 1);
r = mapreduce(ds, @m, @q)
function m(data, ~, store)
  y = 0;
  if 2
    y = y + 1;
  end
  if int8(-1)
    y = y + 10;
  end
  if 0
    y = y + 100;
  end
  if false
    y = y + 1000;
  end
  add(store, 1, y);
end
function q(key, values, out)
  while hasnext(values)
    add(out, key, getnext(values));
  end
end
