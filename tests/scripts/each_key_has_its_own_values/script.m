ds = tabularTextDatastore('a.csv', 'TextscanFormats', {'%q', '%f'}, 'ReadSize', 1);
r = mapreduce(ds, @m, @q)
function m(data, ~, store)
  add(store, data.g(1), data.v(1));
end
function q(key, values, out)
  s = 0;
  while hasnext(values)
    s = s + getnext(values);
  end
  add(out, key, s);
end
