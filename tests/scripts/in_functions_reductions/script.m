ds = tabularTextDatastore('a.csv', 'TextscanFormats', {'%f'}, 'ReadSize', 'file');
r = mapreduce(ds, @m, @q)
function m(data, ~, store)
  x = data.x;
  add(store, 1, sum(x));
  add(store, 2, min(x));
  add(store, 3, max(x));
  add(store, 4, nnz(x));
  add(store, 5, numel(x));
  add(store, 6, height(data));
  add(store, 7, any(x > 2) + 0);
  add(store, 8, all(x > 2) + 0);
  add(store, 9, sum(x .* NaN, 'omitnan'));
end
function q(key, values, out)
  while hasnext(values)
    add(out, key, getnext(values));
  end
end
