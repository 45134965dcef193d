ds = tabularTextDatastore('a.csv', 'TextscanFormats', {'%f'}, 'ReadSize', 1);
r = mapreduce(ds, @m, @q)
function m(data, ~, store)
  if data.x(1) == 1
    y = 10;
  elseif data.x(1) == 2
    y = 20;
  elseif data.x(1) == 3
    y = 30;
  else
    y = 40;
  end
  add(store, 1, y);
end
function q(key, values, out)
  while hasnext(values)
    add(out, key, getnext(values));
  end
end
