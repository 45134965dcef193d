ds = tabularTextDatastore('a.csv', 'TextscanFormats', {'%u16'});
T = tall(ds);

[a, b, c, d, e] = gather(idivide(T.x, 3), idivide(T.x, 3, 'fix'), idivide(T.x, 3, 'floor'), idivide(T.x, 3, 'ceil'), idivide(T.x, 3, 'round'))
