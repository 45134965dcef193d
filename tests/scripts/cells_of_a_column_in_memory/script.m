ds = tabularTextDatastore('a.csv', 'TextscanFormats', {'%f'});
T = tall(ds);
x = gather(T.x);
a = x(1)
b = x(3)
c = x(x(1))
