ds = tabularTextDatastore('a.csv');
r = mapreduce(ds, @m, @q);
function m(data, ~, store)
  for k = 1:16777216
    n = 1;
  end
end
function q(key, values, out)
  add(out, key, getnext(values));
end
