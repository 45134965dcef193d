ds = tabularTextDatastore('a.csv', 'TextscanFormats', {'%f'});
T = tall(ds);
t = gather(T);
a = height(t)
