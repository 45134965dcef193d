ds = tabularTextDatastore('a.csv', 'TextscanFormats', {'%d8'}, 'ReadSize', READSIZE);
T = tall(ds);
s = gather(sum(T.x, 'native'))
