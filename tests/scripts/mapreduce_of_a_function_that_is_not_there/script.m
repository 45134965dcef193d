ds = tabularTextDatastore('a.csv');
r = mapreduce(ds, @m, @z);
function m(a, b, c)
end
