ds = tabularTextDatastore('a.csv', 'TextscanFormats', {'%f'}, 'ReadSize', 'file');
r = mapreduce(ds, @m, @q)
function m(data, ~, store)
  add(store, 1, numel(data.x));
  add(store, 2, nnz(data.x));
  add(store, 3, height(data));
end
function q(key, values, out)
  while hasnext(values)
    add(out, key, getnext(values));
  end
end
