ds = tabularTextDatastore('a.csv');
r = mapreduce(1, @m, @m);
function m(a, b, c)
end
