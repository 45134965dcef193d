ds = tabularTextDatastore('a.csv', 'TextscanFormats', {'%d8', '%d8'}, 'ReadSize', READSIZE);
T = tall(ds);
[a, b, c, d] = gather(bitand(T.x, T.y), bitor(T.x, T.y), bitxor(T.x, T.y), bitxor(1, T.x))
