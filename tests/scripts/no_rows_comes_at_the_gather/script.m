ds = tabularTextDatastore('a.csv', 'TextscanFormats', {'%f'}, 'ReadSize', READSIZE);
T = tall(ds);
a = max(T.x(T.x > 9));
b = 1
c = gather(a + 1)
