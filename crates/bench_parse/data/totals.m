% totals by a map and a reduce
ds = tabularTextDatastore('a.csv'); % the file
n = gather(sum(tall(ds).Value));
t = mapreduce(ds, @f, @f)
function f(data, info, out)
  add(out, 'n', sum(data.Value))
end
