ds = tabularTextDatastore('a.csv', 'TextscanFormats', {'%f'}, 'ReadSize', READSIZE);
es = tabularTextDatastore('b.csv', 'TextscanFormats', {'%f'}, 'ReadSize', READSIZE);
A = tall(ds);
B = tall(es);
y = B.x ./ 2;
x = A.x ./ 0;
[x, y] = gather(x, y)
