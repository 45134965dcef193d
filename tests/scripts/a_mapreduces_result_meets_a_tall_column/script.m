ds = tabularTextDatastore('a.csv', 'ReadSize', READSIZE);
T = tall(ds);
r = mapreduce(ds, @m, @q);
top = max(r.Value);
y = gather(T.v - top)
best = r(r.Value == top, :)
t = readall(r).Key(1)
function m(data, ~, store)
  for k = 1:height(data)
    add(store, data.g(k), data.v(k));
  end
end
function q(key, values, out)
  s = 0;
  while hasnext(values)
    s = s + getnext(values);
  end
  add(out, key, s);
end
