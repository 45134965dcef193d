ds = tabularTextDatastore('a.csv', 'TextscanFormats', {'%f'}, 'ReadSize', 'file');
r = mapreduce(ds, @m, @q)
function m(data, ~, store)
  add(store, 1, 2 == 3);
  add(store, 2, 2 ~= 3);
  add(store, 3, 2 < 2);
  add(store, 4, 2 <= 2);
  add(store, 5, 3 > 3);
  add(store, 6, 3 >= 3);
  add(store, 7, 2 > 3);
  add(store, 8, 2 < 3);
  add(store, 9, true & false);
  add(store, 10, true | false);
  add(store, 11, ~true);
end
function q(key, values, out)
  while hasnext(values)
    add(out, key, getnext(values));
  end
end
