ds = tabularTextDatastore('a.csv', 'TextscanFormats', {'%q'}, 'ReadSize', READSIZE);
T = tall(ds);
[a, b, c, d] = gather(T.x == 'b', 'b' < T.x, T.x <= 'b', strcmp(T.x, 'B'))
