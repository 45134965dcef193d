ds = tabularTextDatastore('a.csv', 'ReadSize', READSIZE);
r = mapreduce(ds, @m, @q)
function m(data, ~, store)
  for k = 1:height(data)
    add(store, data.x(k), 1);
  end
end
function q(key, values, out)
  y = 6 ./ (key - 3);
  add(out, key, y);
end
