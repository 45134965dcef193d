ds = tabularTextDatastore('a.csv', 'TextscanFormats', {'%q'});
T = tall(ds);
a = T.x * T.x;
