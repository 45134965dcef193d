ds = tabularTextDatastore('a.csv', 'TextscanFormats', {'%f'}, 'ReadSize', 1);
r = mapreduce(ds, @m, @q)
function m(data, ~, store)
  add(store, data.x(1), 1);
  if data.x(1) == 3
    y = 1 ./ 2;
  end
end
function q(key, values, out)
  y = 1 ./ 0;
end
