ds = tabularTextDatastore('a.csv', 'TextscanFormats', {'%f', '%f'}, 'ReadSize', READSIZE);
T = tall(ds);
[a, b, c, d, e, f] = gather(T.x == T.y, T.x ~= T.y, T.x < T.y, T.x <= T.y, T.x > T.y, T.x >= T.y)
