% ratios
ds = tabularTextDatastore('a.csv', 'TextscanFormats', {'%f'}, 'ReadSize', READSIZE);
T = tall(ds);
m = max(T.x);
k = 1;
y = T.x ./ (T.x - m);
z = T.x ./ 0;
[y, z] = gather(y, z)
