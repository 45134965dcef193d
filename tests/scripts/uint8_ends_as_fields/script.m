ds = tabularTextDatastore('a.csv', 'TextscanFormats', {'%u8'});
T = tall(ds);
v = gather(T.x)
