ds = tabularTextDatastore('a.csv');
r = mapreduce(ds, @m, @q);
function m(data, ~, store)
add(store, 1, 1);
end
function q(key, values, out)
while hasnext(values)
n = 1;
end
end
