ds = tabularTextDatastore('a.csv', 'TextscanFormats', {'%f'}, 'ReadSize', READSIZE);
T = tall(ds);
[a, b, c] = gather(max(tail(T.x, 2)), head(T.x, 1), min(head(T.x, 2)) + max(T.x))
