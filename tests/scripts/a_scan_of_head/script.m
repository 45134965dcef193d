ds = tabularTextDatastore('a.csv', 'TextscanFormats', {'%f'}, 'ReadSize', READSIZE);
T = tall(ds);
[a, b] = gather(cumsum(head(T.x, 3)), sum(tail(T.x, 2)))
