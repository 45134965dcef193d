ds = tabularTextDatastore('a.csv', 'TextscanFormats', {'%f', '%d8', '%q'}, 'ReadSize', READSIZE);
T = tall(ds);
r = mapreduce(ds, @m, @q)
function m(data, ~, store)
  for k = 1:height(data)
    add(store, data.g(k), data.i(k));
  end
end
function q(key, values, out)
  s = getnext(values);
  while hasnext(values)
    s = s + getnext(values);
  end
  add(out, key, s);
end
