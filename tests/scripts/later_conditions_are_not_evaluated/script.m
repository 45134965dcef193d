ds = tabularTextDatastore('a.csv', 'TextscanFormats', {'%f'}, 'ReadSize', 1);
r = mapreduce(ds, @m, @q)
function m(data, ~, store)
  if true
    y = 1;
  elseif nosuch
    y = 2;
  end
  add(store, 1, y);
end
function q(key, values, out)
  while hasnext(values)
    add(out, key, getnext(values));
  end
end
