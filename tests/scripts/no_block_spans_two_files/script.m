ds = tabularTextDatastore({'a.csv', 'b.csv'}, 'ReadSize', 2);
r = mapreduce(ds, @sizes, @total)
function sizes(data, ~, store)
  add(store, "rows", numel(data.x));
end
function total(key, values, out)
  n = 0;
  s = 0;
  while hasnext(values)
    s = s + getnext(values);
    n = n + 1;
  end
  add(out, "count", n);
  add(out, "total", s);
end
