ds = tabularTextDatastore('a.csv', 'TextscanFormats', {'%f'}, 'ReadSize', 'file');
r = mapreduce(ds, @m, @q)
function m(data, ~, store)
  p = data.x > 1;
  add(store, 1, nnz(p & data.x < 3));
  add(store, 2, nnz(p | data.x == 1));
  add(store, 3, nnz(~p));
end
function q(key, values, out)
  while hasnext(values)
    add(out, key, getnext(values));
  end
end
