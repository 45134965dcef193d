ds = tabularTextDatastore({'a.csv', 'b.csv', 'c.csv'}, 'TextscanFormats', {'%f'}, 'ReadSize', READSIZE);
T = tall(ds);
y = gather(T.x ./ 2)
