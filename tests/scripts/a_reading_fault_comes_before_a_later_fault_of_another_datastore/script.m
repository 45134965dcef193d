ds = tabularTextDatastore('a.csv', 'TextscanFormats', {'%f'}, 'ReadSize', READSIZE);
es = tabularTextDatastore('b.csv', 'TextscanFormats', {'%f'}, 'ReadSize', READSIZE);
A = tall(ds);
B = tall(es);
y = A.x ./ 0;
[x, y] = gather(B.x, y)
