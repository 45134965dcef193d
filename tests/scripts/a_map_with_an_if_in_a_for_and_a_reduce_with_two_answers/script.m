ds = tabularTextDatastore({'a.csv', 'b.csv'}, 'TextscanFormats', {'%d8'}, 'ReadSize', READSIZE);
r = mapreduce(ds, @split, @ends)
function split(data, ~, store)
  for k = 1:height(data)
    x = data.x(k);
    if x < 0
      add(store, "negative", x);
    elseif mod(x, 2) == 0
      add(store, "even", x);
    else
      add(store, "odd", x);
    end
  end
end
function ends(key, values, out)
  low = getnext(values);
  high = low;
  while hasnext(values)
    v = getnext(values);
    if v < low
      low = v;
    end
    if v > high, high = v; end
  end
  add(out, key, low);
  add(out, key, high);
end
