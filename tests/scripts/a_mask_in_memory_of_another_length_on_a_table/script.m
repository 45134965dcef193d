ds = tabularTextDatastore('a.csv', 'TextscanFormats', {'%f'});
T = tall(ds);
t = gather(T);
m = gather(head(T.x, 1) > 0);
y = t(m, :)
