ds = tabularTextDatastore('a.csv', 'TextscanFormats', {'%q', '%q'}, 'ReadSize', READSIZE);
T = tall(ds);
[a, b, c, d, e, f] = gather(T.x == T.y, T.x ~= T.y, T.x < T.y, T.x <= T.y, T.x > T.y, T.x >= T.y)
