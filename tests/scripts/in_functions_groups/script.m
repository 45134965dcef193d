ds = tabularTextDatastore('a.csv', 'TextscanFormats', {'%q', '%d8'}, 'ReadSize', 'file');
r = mapreduce(ds, @m, @q)
function m(data, ~, store)
  G = groupsummary(data, 'g', 'sum', 'v');
  add(store, 1, height(G));
  add(store, 2, G.sum_v(1));
  add(store, 3, G.GroupCount(2));
  H = groupsummary(data, 'g', 'max', 'v');
  add(store, 4, double(H.max_v(1)));
  J = groupsummary(data, 'g');
  add(store, 5, J.GroupCount(1));
end
function q(key, values, out)
  while hasnext(values)
    add(out, key, getnext(values));
  end
end
