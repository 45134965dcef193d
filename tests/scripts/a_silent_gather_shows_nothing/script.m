ds = tabularTextDatastore('a.csv', 'TextscanFormats', {'%f'}, 'ReadSize', READSIZE);
T = tall(ds);
[a, b] = gather(max(T.x), min(T.x));
x = gather(T.x);
