ds = tabularTextDatastore('a.csv', 'TextscanFormats', {'%u32'});
T = tall(ds);
v = gather(T.x)
