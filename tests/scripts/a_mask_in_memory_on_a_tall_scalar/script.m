ds = tabularTextDatastore('a.csv', 'TextscanFormats', {'%f'});
T = tall(ds);
m = gather(T.x > 0);
y = max(T.x)(m);
