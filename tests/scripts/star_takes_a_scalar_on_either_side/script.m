ds = tabularTextDatastore('a.csv', 'TextscanFormats', {'%f'});
T = tall(ds);
[a, b, c] = gather(T.x * 2, 2 * T.x, T.x / 2)
