ds = tabularTextDatastore('a.csv', 'TextscanFormats', {'%d8'});
T = tall(ds);
sum = gather(T.x);
y = sum(2)
