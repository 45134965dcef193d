ds = tabularTextDatastore('a.csv', 'TextscanFormats', {'%f'}, 'ReadSize', 1);
r = mapreduce(ds, @m, @q)
function m(data, ~, store)
  for j = 1:2
    for k = 1:j
      add(store, j, k);
    end
  end
end
function q(key, values, out)
  while hasnext(values)
    add(out, key, getnext(values));
  end
end
