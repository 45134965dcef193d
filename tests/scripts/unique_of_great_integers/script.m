ds = tabularTextDatastore('a.csv', 'TextscanFormats', {'%u64'}, 'ReadSize', READSIZE);
T = tall(ds);
a = gather(unique(T.x))
