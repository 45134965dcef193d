ds = tabularTextDatastore('a.csv', 'TextscanFormats', {'%d8', '%f'});
T = tall(ds);
[a, b] = gather(+T.x, +T.y)
