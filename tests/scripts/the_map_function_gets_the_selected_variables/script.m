ds = tabularTextDatastore('a.csv', 'TextscanFormats', {'%f', '%f', '%q'}, 'ReadSize', 1, 'SelectedVariableNames', {'y', 'x'});
r = mapreduce(ds, @m, @q)
function m(data, ~, store)
  add(store, data.y(1), data.x(1));
end
function q(key, values, out)
  while hasnext(values)
    add(out, key, getnext(values));
  end
end
