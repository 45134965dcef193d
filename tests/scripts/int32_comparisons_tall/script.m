ds = tabularTextDatastore('a.csv', 'TextscanFormats', {'%d32'});
T = tall(ds);

[a, b, c, d, e, f] = gather(T.x == 4, T.x ~= 4, T.x < 4, T.x <= 4, T.x > 4, T.x >= 4)
