ds = tabularTextDatastore('a.csv', 'TextscanFormats', {'%d8', '%f'});
T = tall(ds);
x = bitor(T.x, T.y);
