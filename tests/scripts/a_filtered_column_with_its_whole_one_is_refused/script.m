ds = tabularTextDatastore('a.csv', 'TextscanFormats', {'%f', '%f'});
T = tall(ds);
q = T.x(T.x > 0) + T.y;
