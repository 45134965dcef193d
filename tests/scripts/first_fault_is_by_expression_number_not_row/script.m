ds = tabularTextDatastore('a.csv', 'TextscanFormats', {'%f'}, 'ReadSize', READSIZE);
T = tall(ds);
a = T.x ./ 4;
b = T.x ./ 3;
[a, b] = gather(a, b)
