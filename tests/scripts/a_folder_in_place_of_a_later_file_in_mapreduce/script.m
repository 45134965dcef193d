ds = tabularTextDatastore({'a.csv', 'b.csv'});
r = mapreduce(ds, @m, @q)
function m(data, ~, store)
  add(store, 1, height(data));
end
function q(key, values, out)
  add(out, key, getnext(values));
end
