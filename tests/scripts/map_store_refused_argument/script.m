ds = tabularTextDatastore('a.csv', 'TextscanFormats', {'%f'}, 'ReadSize', 1);
r = mapreduce(ds, @m, @q)
function m(data, ~, store)
  x = numel(store);
end
function q(key, values, out)
  while hasnext(values)
    add(out, key, getnext(values));
  end
end
