ds = tabularTextDatastore('a.csv', 'TextscanFormats', {'%f'}, 'ReadSize', 1);
r = mapreduce(ds, @m, @q)
function m(data, ~, store)
  add(store, 1, data.x(1));
end
function q(key, values, out)
  add(out, key, getnext(values) - getnext(values) .* getnext(values));
end
