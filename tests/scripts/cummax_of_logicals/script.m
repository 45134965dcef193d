ds = tabularTextDatastore('a.csv', 'TextscanFormats', {'%f'});
T = tall(ds);
a = cummax(T.x > 1);
