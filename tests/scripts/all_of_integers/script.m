ds = tabularTextDatastore('a.csv', 'TextscanFormats', {'%d8'});
T = tall(ds);
a = all(T.x);
