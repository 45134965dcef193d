ds = tabularTextDatastore('a.csv', 'TextscanFormats', {'%f'}, 'ReadSize', READSIZE);
T = tall(ds);
[a, b] = gather(sum(T.x), sum(T.x, 'native'))
