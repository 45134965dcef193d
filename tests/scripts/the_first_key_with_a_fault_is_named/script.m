ds = tabularTextDatastore('a.csv', 'TextscanFormats', {'%f'}, 'ReadSize', 1);
r = mapreduce(ds, @m, @q)
function m(data, ~, store)
  add(store, data.x(1), 1);
end
function q(key, values, out)
  if key == 2
    y = 1 ./ 0;
  end
  if key == 3
    y = 1 ./ 2;
  end
end
