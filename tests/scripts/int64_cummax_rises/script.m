ds = tabularTextDatastore('a.csv', 'TextscanFormats', {'%d64'}, 'ReadSize', READSIZE);
T = tall(ds);
[a, b] = gather(cummax(T.x), cummin(T.x))
