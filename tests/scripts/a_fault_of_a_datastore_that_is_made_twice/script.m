ds = tabularTextDatastore('a.csv', 'TextscanFormats', {'%d8'});
T = tall(ds);
ds = tabularTextDatastore('a.csv', 'TextscanFormats', {'%f'});
U = tall(ds);
[a, b] = gather(T.x, U.x)
