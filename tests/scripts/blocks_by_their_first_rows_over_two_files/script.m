ds = tabularTextDatastore({'a.csv', 'b.csv'}, 'TextscanFormats', {'%f'}, 'ReadSize', 4);
r = mapreduce(ds, @m, @q)
function m(data, ~, store)
  add(store, data.x(1), numel(data.x));
end
function q(key, values, out)
  while hasnext(values)
    add(out, key, getnext(values));
  end
end
