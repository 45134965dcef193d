ds = tabularTextDatastore('a.csv', 'TextscanFormats', {'%d8', '%q'}, 'ReadSize', READSIZE);
T = tall(ds);
[y, t, n] = gather(T.x(T.x > 9), T(T.x > 9, :), sum(T.x(T.x > 9)))
