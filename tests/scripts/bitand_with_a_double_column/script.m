ds = tabularTextDatastore('a.csv', 'TextscanFormats', {'%d8', '%f'});
T = tall(ds);
x = bitand(T.x, T.y);
