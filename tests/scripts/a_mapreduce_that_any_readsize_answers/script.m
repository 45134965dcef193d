ds = tabularTextDatastore('a.csv', 'ReadSize', READSIZE);
r = mapreduce(ds, @m, @q)
function m(data, ~, store)
  for k = 1:height(data)
    add(store, data.g(k), data.v(k));
  end
end
function q(key, values, out)
  s = 0;
  m = getnext(values);
  s = m;
  while hasnext(values)
    v = getnext(values);
    s = s + v;
    if v > m
      m = v;
    end
  end
  add(out, key, s);
  add(out, key, m);
end
