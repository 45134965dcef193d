ds = tabularTextDatastore('a.csv', 'TextscanFormats', {'%f'}, 'ReadSize', 'file');
r = mapreduce(ds, @m, @q)
function m(data, ~, store)
  x = data.x;
  add(store, 1, sum(x == 2));
  add(store, 2, sum(x ~= 2));
  add(store, 3, sum(x < 3) .* 10);
  add(store, 4, sum(x <= 1) .* 10);
  add(store, 5, sum(x > 1) .* 100);
  add(store, 6, sum(x >= 3) .* 100);
end
function q(key, values, out)
  while hasnext(values)
    add(out, key, getnext(values));
  end
end
