ds = tabularTextDatastore('a.csv', 'TextscanFormats', {'%f'});
T = tall(ds);
s = sum(T.x)
T
ds
k = int8(100) + 100
