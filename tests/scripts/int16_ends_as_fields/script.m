ds = tabularTextDatastore('a.csv', 'TextscanFormats', {'%d16'});
T = tall(ds);
v = gather(T.x)
