ds = tabularTextDatastore('a.csv', 'TextscanFormats', {'%f'}, 'ReadSize', READSIZE);
T = tall(ds);
[a, b, c, d, e] = gather(T.x - 10, T.x ./ 2, mod(T.x, 3), T.x < 3, T.x >= 3)
