ds = tabularTextDatastore('a.csv', 'ReadSize', READSIZE);
v = mapreduce(ds, @m, @q).Value(1)
r = mapreduce(ds, @m, @q);
r.Key
function m(data, ~, store)
  add(store, int8(1), sum(data.x));
end
function q(key, values, out)
  s = 0;
  while hasnext(values), s = s + getnext(values); end
  add(out, key, s);
end
