ds = tabularTextDatastore({'a.csv', 'b.csv', 'c.csv'}, 'TextscanFormats', {'%f'}, 'ReadSize', READSIZE);
T = tall(ds);
[t, all_rows, h] = gather(tail(T.x, 4), tail(T.x), head(T.x, 3))
