ds = tabularTextDatastore('a.csv', 'TextscanFormats', {'%d8'}, 'ReadSize', READSIZE);
T = tall(ds);
[a, b] = gather(cumsum(cumsum(T.x)), cummax(cumsum(T.x)))
