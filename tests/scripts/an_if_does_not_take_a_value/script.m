ds = tabularTextDatastore('a.csv', 'TextscanFormats', {'%f'}, 'ReadSize', 1);
r = mapreduce(ds, @m, @q)
function m(data, ~, store)
  add(store, 1, data.x(1));
end
function q(key, values, out)
  if hasnext(values)
    add(out, 1, 1);
  end
  add(out, 1, getnext(values));
end
