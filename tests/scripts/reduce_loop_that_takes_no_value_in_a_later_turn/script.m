ds = tabularTextDatastore('a.csv', 'TextscanFormats', {'%f'}, 'ReadSize', 1);
r = mapreduce(ds, @m, @q)
function m(data, ~, store)
  add(store, 1, numel(data.x));
end
function q(key, values, out)
  n = 0;
  while hasnext(values)
    if n == 0
      x = getnext(values);
    end
    n = n + 1;
  end
end
