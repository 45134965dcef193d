ds = tabularTextDatastore('a.csv', 'TextscanFormats', {'%f'}, 'ReadSize', READSIZE);
T = tall(ds);
y = max(T.x) + 1
z = gather(y)
