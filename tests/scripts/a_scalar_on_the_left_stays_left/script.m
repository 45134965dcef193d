ds = tabularTextDatastore('a.csv', 'TextscanFormats', {'%f'}, 'ReadSize', READSIZE);
T = tall(ds);
[a, b, c, d, e] = gather(10 - T.x, 12 ./ T.x, mod(10, T.x), 3 < T.x, 3 >= T.x)
