ds = tabularTextDatastore('a.csv', 'TextscanFormats', {'%d32'});
T = tall(ds);

[a, b, c] = gather(mod(T.x, 3), mod(T.x, -3), mod(T.x, 0))
