ds = tabularTextDatastore('a.csv', 'TextscanFormats', {'%q', '%d8'}, 'ReadSize', 'file');
r = mapreduce(ds, @m, @q)
function m(data, ~, store)
  G = groupsummary(data, 'g', 'sum', 'v');
  add(store, 1, G.sum_v(1));
  G = groupsummary(data, 'g', 'sumnative', 'v');
  add(store, 2, double(G.sumnative_v(1)));
  G = groupsummary(data, 'g', 'min', 'v');
  add(store, 3, double(G.min_v(1)));
  G = groupsummary(data, 'g', 'max', 'v');
  add(store, 4, double(G.max_v(1)));
  G = groupsummary(data, 'g', 'nnz', 'v');
  add(store, 5, G.nnz_v(1));
  G = groupsummary(data, 'g', 'nummissing', 'v');
  add(store, 6, G.nummissing_v(1));
end
function q(key, values, out)
  while hasnext(values)
    add(out, key, getnext(values));
  end
end
