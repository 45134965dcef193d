ds = tabularTextDatastore('a.csv', 'TextscanFormats', {'%f'}, 'ReadSize', 1);
r = mapreduce(ds, @m, @q)
function m(data, ~, store)
  add(store, 1, data.x(1));
end
function q(key, values, out)
  add(out, 'a', hasnext(values) + 0);
  add(out, 'b', hasnext(values) + 0);
  add(out, 'c', getnext(values));
  add(out, 'd', hasnext(values) + 0);
  add(out, 'e', getnext(values));
  add(out, 'f', hasnext(values) + 0);
end
