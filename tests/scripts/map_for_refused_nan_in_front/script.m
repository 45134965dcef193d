ds = tabularTextDatastore('a.csv', 'TextscanFormats', {'%f'}, 'ReadSize', 1);
r = mapreduce(ds, @m, @q)
function m(data, ~, store)
  for k = NaN:1
    y = 1;
  end
end
function q(key, values, out)
  while hasnext(values)
    add(out, key, getnext(values));
  end
end
