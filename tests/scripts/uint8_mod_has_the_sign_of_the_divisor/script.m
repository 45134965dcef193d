ds = tabularTextDatastore('a.csv', 'TextscanFormats', {'%u8'});
T = tall(ds);

[a, b, c] = gather(mod(T.x, 3), mod(T.x, -3), mod(T.x, 0))
