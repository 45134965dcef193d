ds = tabularTextDatastore('a.csv', 'TextscanFormats', {'%q'});
T = tall(ds);
a = min(T.x);
