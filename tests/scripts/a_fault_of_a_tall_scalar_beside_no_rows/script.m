ds = tabularTextDatastore('a.csv', 'TextscanFormats', {'%f'}, 'ReadSize', READSIZE);
T = tall(ds);
y = gather(T.x(T.x > 9) + max(T.x) ./ 2)
