ds = tabularTextDatastore('a.csv');
r = mapreduce(ds, @m, @q);
s = mapreduce(ds, @n, @q)
r
function m(a, ~, c)
  add(c, 1, sum(a.x));
end
function n(a, ~, c)
  add(c, 1, max(a.x));
end
function q(k, v, o)
  add(o, k, getnext(v));
end
