ds = tabularTextDatastore('a.csv', 'TextscanFormats', {'%f', '%f'}, 'ReadSize', READSIZE);
T = tall(ds);
s = gather(sum(T.x(T.x > 0) + T.y(T.x > 0)))
