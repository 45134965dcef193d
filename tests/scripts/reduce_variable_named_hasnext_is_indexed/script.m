ds = tabularTextDatastore('a.csv', 'TextscanFormats', {'%f'}, 'ReadSize', 1);
r = mapreduce(ds, @m, @q)
function m(data, ~, store)
  add(store, 1, numel(data.x));
end
function q(key, values, out)
  hasnext = true;
  while hasnext(values)
    x = 1;
  end
end
