ds = tabularTextDatastore('a.csv', 'TextscanFormats', {'%f'}, 'ReadSize', 1);
r = mapreduce(ds, @m, @q)
function m(data, ~, store)
  add(store, true, 1);
end
function q(key, values, out)
  while hasnext(values)
    add(out, key, getnext(values));
  end
end
