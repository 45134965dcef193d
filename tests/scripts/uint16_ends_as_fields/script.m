ds = tabularTextDatastore('a.csv', 'TextscanFormats', {'%u16'});
T = tall(ds);
v = gather(T.x)
