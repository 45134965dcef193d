ds = tabularTextDatastore('a.csv', 'TextscanFormats', {'%f'});
T = tall(ds);
U = tall(tabularTextDatastore('a.csv'));
z = T.x(U.x > 1);
