ds = tabularTextDatastore('a.csv', 'TextscanFormats', {'%f'}, 'ReadSize', 'file');
r = mapreduce(ds, @m, @q)
function m(data, ~, store)
  getnext = data.x;
  add(store, 1, getnext(2));
end
function q(key, values, out)
  while hasnext(values)
    add(out, key, getnext(values));
  end
end
