ds = tabularTextDatastore('a.csv', 'TextscanFormats', {'%q'});
T = tall(ds);
v = gather(T.x)
