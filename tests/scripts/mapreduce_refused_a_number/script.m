ds = tabularTextDatastore('a.csv');
r = mapreduce(ds, @m, 1);
function m(a, b, c)
end
