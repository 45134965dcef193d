ds = tabularTextDatastore('a.csv', 'TextscanFormats', {'%q'}, 'ReadSize', 'file');
r = mapreduce(ds, @m, @q)
function m(data, ~, store)
  g = data.g;
  add(store, 1, g(1) == 'a');
  add(store, 2, g(1) == g(2));
  add(store, 3, g(1) < g(2));
  add(store, 4, strcmp(g(1), 'A'));
  add(store, 5, any(g == 'b'));
  add(store, 6, all(g >= 'b'));
end
function q(key, values, out)
  while hasnext(values)
    add(out, key, getnext(values));
  end
end
