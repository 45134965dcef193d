ds = tabularTextDatastore('a.csv', 'TextscanFormats', {'%f'});
T = tall(ds);
y = T.x(:);
