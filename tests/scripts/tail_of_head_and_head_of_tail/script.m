ds = tabularTextDatastore('a.csv', 'TextscanFormats', {'%f'}, 'ReadSize', READSIZE);
T = tall(ds);
[a, b] = gather(tail(head(T.x, 5), 2), head(tail(T.x, 5), 2))
