ds = tabularTextDatastore('a.csv');
r = mapreduce(ds, @m, @m)
function m(~, ~, ~)
end
