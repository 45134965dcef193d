ds = tabularTextDatastore('a.csv');
r = mapreduce(ds, @m, @q);
function m(data, ~, store)
add(store, 1, 1);
add(store, "a", 1);
end
function q(key, values, out)
add(out, key, getnext(values));
end
