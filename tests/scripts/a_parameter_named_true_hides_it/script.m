ds = tabularTextDatastore('a.csv', 'TextscanFormats', {'%f'}, 'ReadSize', 1);
r = mapreduce(ds, @m, @q)
function m(true, ~, store)
  x = true;
  add(store, 1, height(true));
end
function q(key, values, out)
  while hasnext(values)
    add(out, key, getnext(values));
  end
end
