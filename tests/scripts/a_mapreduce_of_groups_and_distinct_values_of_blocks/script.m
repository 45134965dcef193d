ds = tabularTextDatastore('a.csv', 'TextscanFormats', {'%f', '%d8', '%q'}, 'ReadSize', 2);
T = tall(ds);
r = mapreduce(ds, @m, @q)
function m(data, ~, store)
  G = groupsummary(data, 'g', 'sum', 'i');
  for k = 1:height(G)
    add(store, G.g(k), G.sum_i(k));
  end
  add(store, "distinct", numel(unique(data.i)));
end
function q(key, values, out)
  s = getnext(values);
  while hasnext(values)
    s = s + getnext(values);
  end
  add(out, key, s);
end
