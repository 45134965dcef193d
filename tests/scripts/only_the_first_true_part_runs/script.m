ds = tabularTextDatastore('a.csv', 'TextscanFormats', {'%f'}, 'ReadSize', 1);
r = mapreduce(ds, @m, @q)
function m(data, ~, store)
  y = 0;
  if data.x(1) > 0
    y = y + 1;
  elseif data.x(1) > 1
    y = y + 10;
  else
    y = y + 100;
  end
  add(store, 1, y);
end
function q(key, values, out)
  while hasnext(values)
    add(out, key, getnext(values));
  end
end
