ds = tabularTextDatastore('a.csv', 'TextscanFormats', {'%f'}, 'ReadSize', READSIZE);
T = tall(ds);
[a, b] = gather(head(cumsum(T.x), 3), tail(cumsum(T.x), 1))
