ds = tabularTextDatastore('a.csv', 'TextscanFormats', {'%f'});
T = tall(ds);
y = T.x ./ 0;
e = tabularTextDatastore('b.csv', 'TextscanFormats', {'%f'});
U = tall(e);
[u, y] = gather(U.x, y)
