ds = tabularTextDatastore('a.csv', 'TextscanFormats', {'%u32'});
T = tall(ds);

[a, b, c, d, e, f] = gather(T.x == 4, T.x ~= 4, T.x < 4, T.x <= 4, T.x > 4, T.x >= 4)
