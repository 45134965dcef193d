ds = tabularTextDatastore('a.csv');
r = mapreduce(ds, @f, @f)
function f(a, b, c)
  add(c, 1, 2);
end
