ds = tabularTextDatastore('a.csv');
T = tall(ds);
r = mapreduce(ds, @m, @q)
function m(data, ~, store)
  add(store, height(data), 1);
end
function q(key, values, out)
  n = 0;
  while hasnext(values)
    n = n + getnext(values);
  end
  add(out, key, n);
end
