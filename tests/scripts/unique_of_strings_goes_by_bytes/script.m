ds = tabularTextDatastore('a.csv', 'TextscanFormats', {'%q'}, 'ReadSize', READSIZE);
T = tall(ds);
a = gather(unique(T.x))
