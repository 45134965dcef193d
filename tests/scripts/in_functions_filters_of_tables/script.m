ds = tabularTextDatastore('a.csv', 'TextscanFormats', {'%f'}, 'ReadSize', 'file');
r = mapreduce(ds, @m, @q)
function m(data, ~, store)
  t = data(data.x > 1, :);
  add(store, 1, height(t));
  add(store, 2, sum(t.x));
  u = data(data.x > 9, :);
  add(store, 3, height(u));
end
function q(key, values, out)
  while hasnext(values)
    add(out, key, getnext(values));
  end
end
