ds = tabularTextDatastore('a.csv', 'TextscanFormats', {'%f'}, 'ReadSize', 'file');
r = mapreduce(ds, @m, @q)
function m(data, ~, store)
  add(store, 1, -data.x(2));
  add(store, 2, +data.x(2));
  add(store, 3, sum(-data.x));
  add(store, 4, ~data.x(1) + 5);
  add(store, 5, sum(+data.x));
  add(store, 6, sum(~(data.x - 1)));
end
function q(key, values, out)
  while hasnext(values)
    add(out, key, getnext(values));
  end
end
