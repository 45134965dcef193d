ds = tabularTextDatastore('a.csv', 'TextscanFormats', {'%d8', '%q', '%f'}, 'ReadSize', READSIZE);
T = tall(ds);
[a, b, c, d] = gather(unique(T.x), unique(T.y), unique(T.z), unique(T.z > 1))
