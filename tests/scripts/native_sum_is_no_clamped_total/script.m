ds = tabularTextDatastore('a.csv', 'TextscanFormats', {'%d8'}, 'ReadSize', READSIZE);
T = tall(ds);
[s, e] = gather(sum(T.x, 'native'), int8(sum(T.x)))
