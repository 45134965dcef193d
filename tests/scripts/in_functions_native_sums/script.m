ds = tabularTextDatastore('a.csv', 'TextscanFormats', {'%d8'}, 'ReadSize', 'file');
r = mapreduce(ds, @m, @q)
function m(data, ~, store)
  x = data.x;
  add(store, 1, sum(x, 'native'));
  add(store, 2, sum(x, 'omitnan', 'native'));
  add(store, 3, int8(sum(x)));
end
function q(key, values, out)
  while hasnext(values)
    add(out, key, getnext(values));
  end
end
