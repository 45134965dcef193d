ds = tabularTextDatastore('a.csv', 'TextscanFormats', {'%f'}, 'ReadSize', 'file');
r = mapreduce(ds, @m, @q)
function m(data, ~, store)
  x = int8(6);
  y = int8(4);
  add(store, 1, x + y);
  add(store, 2, x - y);
  add(store, 3, x .* y);
  add(store, 4, x ./ y);
  add(store, 5, x * y);
  add(store, 6, x / y);
  add(store, 7, -x);
  add(store, 8, +x);
end
function q(key, values, out)
  while hasnext(values)
    add(out, key, getnext(values));
  end
end
