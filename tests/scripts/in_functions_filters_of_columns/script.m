ds = tabularTextDatastore('a.csv', 'TextscanFormats', {'%f'}, 'ReadSize', 'file');
r = mapreduce(ds, @m, @q)
function m(data, ~, store)
  y = data.x(data.x < 3);
  add(store, 1, numel(y));
  add(store, 2, y(2));
end
function q(key, values, out)
  while hasnext(values)
    add(out, key, getnext(values));
  end
end
