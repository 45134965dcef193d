ds = tabularTextDatastore('a.csv', 'TextscanFormats', {'%f'});
T = tall(ds);
y = gather(T.x(T.x > 1) ./ 2);
