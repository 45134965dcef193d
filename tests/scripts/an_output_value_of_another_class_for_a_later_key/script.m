ds = tabularTextDatastore('a.csv', 'TextscanFormats', {'%f'}, 'ReadSize', 1);
r = mapreduce(ds, @m, @q)
function m(data, ~, store)
  add(store, data.x(1), 1);
end
function q(key, values, out)
  if key == 3
    add(out, 1, 1);
  else
    add(out, 1, true);
  end
end
