ds = tabularTextDatastore('a.csv');
r = mapreduce(tall(ds), @m, @m);
function m(a, b, c)
end
