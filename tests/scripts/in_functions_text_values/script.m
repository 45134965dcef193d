ds = tabularTextDatastore('a.csv', 'TextscanFormats', {'%q'}, 'ReadSize', 'file');
r = mapreduce(ds, @m, @q)
function m(data, ~, store)
  add(store, 1, 'it''s');
  add(store, 2, data.g(1));
end
function q(key, values, out)
  while hasnext(values)
    add(out, key, getnext(values));
  end
end
