ds = tabularTextDatastore('a.csv', 'TextscanFormats', {'%f'}, 'ReadSize', 'file');
r = mapreduce(ds, @m, @q)
function m(data, ~, store)
  x = data.x;
  add(store, 1, sum(x ~= 2) + 10 .* nnz((x ~= 2)(3)));
  add(store, 2, nnz(x <= 2) + 10 .* nnz((x <= 2)(1)));
  add(store, 3, nnz(x >= 2) + 10 .* nnz((x >= 2)(3)));
end
function q(key, values, out)
  while hasnext(values)
    add(out, key, getnext(values));
  end
end
