ds = tabularTextDatastore('a.csv', 'TextscanFormats', {'%d8'}, 'ReadSize', READSIZE);
T = tall(ds);
[a, b] = gather(cumsum(T.x) - T.x, max(cumsum(T.x)))
