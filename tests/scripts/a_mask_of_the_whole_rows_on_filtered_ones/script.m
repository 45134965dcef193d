ds = tabularTextDatastore('a.csv', 'TextscanFormats', {'%f'});
T = tall(ds);
y = T.x(T.x > 0);
z = y(T.x > 1);
