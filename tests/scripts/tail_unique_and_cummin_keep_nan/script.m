ds = tabularTextDatastore('a.csv', 'TextscanFormats', {'%f'}, 'ReadSize', READSIZE);
T = tall(ds);
[t, u, c] = gather(tail(T.x, 3), unique(T.x), cummin(T.x))
