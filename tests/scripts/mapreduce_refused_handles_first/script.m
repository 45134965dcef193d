ds = tabularTextDatastore('a.csv');
r = mapreduce(@m, @m, ds);
function m(a, b, c)
end
