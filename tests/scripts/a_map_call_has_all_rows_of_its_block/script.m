ds = tabularTextDatastore('a.csv', 'TextscanFormats', {'%f'}, 'ReadSize', 2);
r = mapreduce(ds, @m, @q)
function m(data, ~, store)
  add(store, 'n', height(data));
  add(store, 's', sum(data.x));
end
function q(key, values, out)
  while hasnext(values)
    add(out, key, getnext(values));
  end
end
