ds = tabularTextDatastore('a.csv', 'TextscanFormats', {'%f'}, 'ReadSize', READSIZE);
T = tall(ds);
s = gather(sum(T.x - max(T.x - min(T.x))))
