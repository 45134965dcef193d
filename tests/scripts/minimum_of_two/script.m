ds = tabularTextDatastore('a.csv', 'TextscanFormats', {'%f'});
T = tall(ds);
a = min(T.x, T.x);
