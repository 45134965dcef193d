ds = tabularTextDatastore('a.csv', 'TextscanFormats', {'%f'}, 'ReadSize', 'file');
r = mapreduce(ds, @m, @q)
function m(data, ~, store)
  x = data.x;
  add(store, 1, sum(x + 1));
  add(store, 2, sum(10 - x));
  add(store, 3, sum(x .* x));
  add(store, 4, sum(6 ./ x));
  add(store, 5, sum(2 * x));
  add(store, 6, sum(x .* 2 / 2));
end
function q(key, values, out)
  while hasnext(values)
    add(out, key, getnext(values));
  end
end
