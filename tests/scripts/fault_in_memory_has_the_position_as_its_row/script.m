ds = tabularTextDatastore('a.csv', 'TextscanFormats', {'%f'});
T = tall(ds);
x = gather(T.x(T.x > 1));
y = x ./ 2
