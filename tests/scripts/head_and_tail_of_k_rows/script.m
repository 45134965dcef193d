ds = tabularTextDatastore('a.csv', 'TextscanFormats', {'%f'}, 'ReadSize', READSIZE);
T = tall(ds);
[a, b, c, d] = gather(head(T.x, 3), tail(T.x, 3), head(T.x, 100), tail(T.x, 11))
