ds = tabularTextDatastore('a.csv', 'TextscanFormats', {'%d32'});
T = tall(ds);
[a, b, c] = gather(idivide(T.x, 2), idivide(T.x, 2, 'floor'), mod(T.x, 3))
