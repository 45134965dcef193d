ds = tabularTextDatastore('a.csv', 'TextscanFormats', {'%f'}, 'ReadSize', 'file');
r = mapreduce(ds, @m, @q)
function m(data, ~, store)
  x = data.x(1);
  add(store, 1, int8(x) + 0);
  add(store, 2, int8(int16(x)));
  add(store, 3, int8(double(int8(x))));
  add(store, 4, int8(logical(x)));
  add(store, 5, int8(isnan(x)));
  add(store, 6, int8(uint8(x)));
end
function q(key, values, out)
  while hasnext(values)
    add(out, key, getnext(values));
  end
end
