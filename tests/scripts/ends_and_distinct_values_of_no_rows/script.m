ds = tabularTextDatastore('a.csv', 'TextscanFormats', {'%f', '%q'}, 'ReadSize', READSIZE);
T = tall(ds);
[a, b, c] = gather(tail(T.x), unique(T.x), head(T, 3))
