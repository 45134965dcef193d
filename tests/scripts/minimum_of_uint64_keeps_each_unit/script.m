ds = tabularTextDatastore('a.csv', 'TextscanFormats', {'%u64'}, 'ReadSize', READSIZE);
T = tall(ds);
[a, b] = gather(min(T.x), max(T.x))
