ds = tabularTextDatastore('a.csv', 'TextscanFormats', {'%f', '%f'}, 'ReadSize', READSIZE);
T = tall(ds);
[a, b] = gather(T.x(T.x > 1 & T.y < 40 | T.x == 1), T(~(T.x == 2), :))
