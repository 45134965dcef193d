ds = tabularTextDatastore('a.csv', 'TextscanFormats', {'%q'});
T = tall(ds);
x = gather(T.x)
