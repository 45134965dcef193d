ds = tabularTextDatastore('a.csv', 'TextscanFormats', {'%f'});
T = tall(ds);
[x, y] = gather(T.x, head(T.x, 1));
z = x + y
