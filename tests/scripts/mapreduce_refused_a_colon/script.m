ds = tabularTextDatastore('a.csv');
r = mapreduce(ds, @m, :);
function m(a, b, c)
end
