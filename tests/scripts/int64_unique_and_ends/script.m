ds = tabularTextDatastore('a.csv', 'TextscanFormats', {'%d64'}, 'ReadSize', READSIZE);
T = tall(ds);

[u, h, e] = gather(unique(T.x), head(T.x, 2), tail(T.x, 2))
