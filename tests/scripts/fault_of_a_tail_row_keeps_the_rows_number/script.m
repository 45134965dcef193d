ds = tabularTextDatastore('a.csv', 'TextscanFormats', {'%f'});
T = tall(ds);
y = gather(tail(T.x, 2) ./ 2);
