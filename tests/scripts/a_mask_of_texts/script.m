ds = tabularTextDatastore('a.csv', 'TextscanFormats', {'%q', '%f'}, 'ReadSize', READSIZE);
T = tall(ds);
[a, b] = gather(T.v(T.g == 'b'), sum(T.v(T.g ~= 'b')))
