ds = tabularTextDatastore('a.csv', 'TextscanFormats', {'%f'});
T = tall(ds);
x = T.x(T.x > 0) + T.x(T.x > 1);
