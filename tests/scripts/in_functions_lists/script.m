ds = tabularTextDatastore('a.csv', 'TextscanFormats', {'%f'}, 'ReadSize', 'file');
r = mapreduce(ds, @m, @q)
function m(data, ~, store)
  x = {'a', 'b'};
  y = x;
  add(store, 1, 1);
end
function q(key, values, out)
  while hasnext(values)
    add(out, key, getnext(values));
  end
end
