ds = tabularTextDatastore({'a.csv', 'b.csv', 'c.csv'}, 'TextscanFormats', {'%f'}, 'ReadSize', READSIZE);
T = tall(ds);
t = tail(T.x, 4);
h = gather(t ./ 2)
