ds = tabularTextDatastore('a.csv', 'TextscanFormats', {'%f'});
e = tabularTextDatastore('b.csv', 'TextscanFormats', {'%f'});
T = tall(ds);
U = tall(e);
[u, y] = gather(U.x, T.x)
