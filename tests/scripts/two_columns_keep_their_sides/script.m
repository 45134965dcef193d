ds = tabularTextDatastore('a.csv', 'TextscanFormats', {'%f', '%f'}, 'ReadSize', READSIZE);
T = tall(ds);
[a, b, c, d] = gather(T.x - T.y, T.x ./ T.y, mod(T.x, T.y), T.x < T.y)
