ds = tabularTextDatastore('a.csv', 'TextscanFormats', {'%f'}, 'ReadSize', READSIZE);
T = tall(ds);
a = T.x ./ 2;
b = a + 1;
c = sum(b);

d = gather(c)
