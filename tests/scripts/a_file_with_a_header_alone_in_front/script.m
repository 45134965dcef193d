ds = tabularTextDatastore({'a.csv', 'b.csv', 'c.csv'}, 'TextscanFormats', {'%d8'}, 'ReadSize', READSIZE);
T = tall(ds);
[s, n] = gather(sum(T.x), height(T))
