ds = tabularTextDatastore('a.csv', 'TextscanFormats', {'%f'}, 'ReadSize', 1);
r = mapreduce(ds, @m, @q)
function m(data, ~, store)
  if false
    y = 1;
  elseif 1 ./ 0
    y = 2;
  end
end
function q(key, values, out)
  while hasnext(values)
    add(out, key, getnext(values));
  end
end
