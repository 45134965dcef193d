ds = tabularTextDatastore('a.csv', 'TextscanFormats', {'%d8'}, 'ReadSize', READSIZE);
T = tall(ds);
[h, c, s] = gather(head(T.x, 2), cumsum(T.x), sum(T.x, 'native'))
