ds = tabularTextDatastore('a.csv', 'TextscanFormats', {'%f'}, 'ReadSize', READSIZE);
T = tall(ds);
[a, b] = gather(head(T.x(T.x > 4), 2), tail(T.x(T.x < 4), 2))
