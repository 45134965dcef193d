ds = tabularTextDatastore('a.csv', 'TextscanFormats', {'%u8'}, 'ReadSize', READSIZE);
T = tall(ds);
s = gather(sum(T.x - 0, 'native'))
