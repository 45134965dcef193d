ds = tabularTextDatastore('a.csv', 'TextscanFormats', {'%u64'});
T = tall(ds);
a = gather(min(T.x));
