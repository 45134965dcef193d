ds = tabularTextDatastore('a.csv', 'TextscanFormats', {'%d8'}, 'ReadSize', READSIZE);
T = tall(ds);
[a, c] = gather(sum(T.x), cumsum(T.x))
