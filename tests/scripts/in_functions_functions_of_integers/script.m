ds = tabularTextDatastore('a.csv', 'TextscanFormats', {'%f'}, 'ReadSize', 'file');
r = mapreduce(ds, @m, @q)
function m(data, ~, store)
  x = int8(data.x(1));
  add(store, 1, idivide(x, 2));
  add(store, 2, idivide(x, 2, 'floor'));
  add(store, 3, idivide(x, 2, 'ceil'));
  add(store, 4, idivide(x, 2, 'round'));
  add(store, 5, mod(x, 3));
  add(store, 6, bitand(x, 3));
  add(store, 7, bitor(x, 3));
  add(store, 8, bitxor(x, 3));
  add(store, 9, abs(x));
  add(store, 10, x ./ 2);
end
function q(key, values, out)
  while hasnext(values)
    add(out, key, getnext(values));
  end
end
