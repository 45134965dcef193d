ds = tabularTextDatastore('a.csv', 'TextscanFormats', {'%f'}, 'ReadSize', READSIZE);
T = tall(ds);
m = max(T.x);
a = gather(m)
b = gather(m)
m
