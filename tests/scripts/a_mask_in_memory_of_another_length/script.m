ds = tabularTextDatastore('a.csv', 'TextscanFormats', {'%f'});
T = tall(ds);
x = gather(T.x);
m = gather(head(T.x, 1) > 0);
y = x(m)
