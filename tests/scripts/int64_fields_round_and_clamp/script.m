ds = tabularTextDatastore('a.csv', 'TextscanFormats', {'%d64'});
T = tall(ds);
v = gather(T.x)
