ds = tabularTextDatastore('a.csv', 'TextscanFormats', {'%d32'});
T = tall(ds);
v = gather(T.x)
