ds = tabularTextDatastore('a.csv', 'TextscanFormats', {'%f'});
T = tall(ds);
a = gather(isnan(T.x))
