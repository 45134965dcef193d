ds = tabularTextDatastore('a.csv', 'TextscanFormats', {'%u64'});
T = tall(ds);
v = gather(T.x)
