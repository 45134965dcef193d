ds = tabularTextDatastore({'a.csv', 'b.csv', 'c.csv'}, 'TextscanFormats', {'%d8'}, 'ReadSize', READSIZE);
T = tall(ds);
[s, c, h, e] = gather(sum(T.x, 'native'), cumsum(T.x), head(T.x, 3), tail(T.x, 3))
