ds = tabularTextDatastore('a.csv', 'TextscanFormats', {'%f'}, 'ReadSize', 2);
r = mapreduce(ds, @m, @q)
function m(data, ~, store)
  y = data.x(head(data.x > 0, 1));
end
function q(key, values, out)
  while hasnext(values)
    add(out, key, getnext(values));
  end
end
