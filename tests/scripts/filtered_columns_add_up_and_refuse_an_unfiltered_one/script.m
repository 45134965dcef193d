ds = tabularTextDatastore('a.csv', 'TextscanFormats', {'%f','%f'});
T = tall(ds);
s = gather(sum(T.x(T.x > 0) + T.y(T.x > 0)))
q = T.x(T.x > 0) + T.y;
