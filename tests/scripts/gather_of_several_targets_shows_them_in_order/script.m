ds = tabularTextDatastore('a.csv', 'TextscanFormats', {'%f'}, 'ReadSize', READSIZE);
T = tall(ds);
[b, a] = gather(max(T.x), min(T.x))
a
b
