ds = tabularTextDatastore('a.csv', 'TextscanFormats', {'%f'});
T = tall(ds);
m = max(T.x);
s = sum(T.x - m);
[m, s] = gather(m, s)
