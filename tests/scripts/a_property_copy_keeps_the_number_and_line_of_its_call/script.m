ds = tabularTextDatastore('a.csv', 'TextscanFormats', {'%f'});
e = tabularTextDatastore('b.csv', 'TextscanFormats', {'%f'});
ds.ReadSize = 1;
T = tall(ds);
U = tall(e);
[u, y] = gather(U.x, T.x)
