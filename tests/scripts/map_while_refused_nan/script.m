ds = tabularTextDatastore('a.csv', 'TextscanFormats', {'%f', '%q'}, 'ReadSize', 'file');
r = mapreduce(ds, @m, @q)
function m(data, ~, store)
  while NaN
    y = 1;
  end
end
function q(key, values, out)
  while hasnext(values)
    add(out, key, getnext(values));
  end
end
