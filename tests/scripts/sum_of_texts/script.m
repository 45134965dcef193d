ds = tabularTextDatastore('a.csv', 'TextscanFormats', {'%q'});
T = tall(ds);
s = sum(T.x);
