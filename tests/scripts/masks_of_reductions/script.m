ds = tabularTextDatastore('a.csv', 'TextscanFormats', {'%f'}, 'ReadSize', READSIZE);
T = tall(ds);
y = gather(T.x(T.x > min(T.x)) - T.x(T.x > min(T.x)))
