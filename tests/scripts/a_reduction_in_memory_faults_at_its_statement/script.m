ds = tabularTextDatastore('a.csv', 'TextscanFormats', {'%f'});
T = tall(ds);
x = gather(T.x);
a = sum(x);
b = 1
