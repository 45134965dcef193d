ds = tabularTextDatastore('a.csv', 'TextscanFormats', {'%f'}, 'ReadSize', 1);
r = mapreduce(ds, @m, @q)
function m(data, ~, store)
  add(store, 1, data.x(1));
end
function q(key, values, out)
  n = 0;
  while hasnext(values) & n < 3
    n = n + 1;
  end
  add(out, key, n);
end
