ds = tabularTextDatastore('a.csv', 'TextscanFormats', {'%f', '%q'}, 'ReadSize', 'file');
r = mapreduce(ds, @m, @q)
function m(data, ~, store)
  if data.x > 0
    y = 1;
  end
end
function q(key, values, out)
  while hasnext(values)
    add(out, key, getnext(values));
  end
end
