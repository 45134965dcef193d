ds = tabularTextDatastore('a.csv', 'TextscanFormats', {'%d64'}, 'ReadSize', READSIZE);
T = tall(ds);
[c, s] = gather(cumsum(T.x), sum(T.x, 'native'))
