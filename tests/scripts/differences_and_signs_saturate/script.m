ds = tabularTextDatastore('a.csv', 'TextscanFormats', {'%u8', '%d8'});
T = tall(ds);
[a, b, c] = gather(T.u - 10, -T.i, abs(T.i))
