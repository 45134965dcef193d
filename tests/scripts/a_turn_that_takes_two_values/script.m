ds = tabularTextDatastore('a.csv', 'TextscanFormats', {'%f'}, 'ReadSize', 1);
r = mapreduce(ds, @m, @q)
function m(data, ~, store)
  add(store, 1, data.x(1));
end
function q(key, values, out)
  while hasnext(values)
    x = getnext(values);
    add(out, key, x - getnext(values));
  end
end
