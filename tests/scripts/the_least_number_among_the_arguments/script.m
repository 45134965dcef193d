ds = tabularTextDatastore('a.csv', 'TextscanFormats', {'%f'}, 'ReadSize', READSIZE);
T = tall(ds);
a = T.x ./ 0;
b = T.x ./ 0;
[x, y] = gather(b, a)
