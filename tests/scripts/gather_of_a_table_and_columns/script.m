ds = tabularTextDatastore('a.csv', 'TextscanFormats', {'%f', '%q'}, 'ReadSize', READSIZE);
T = tall(ds);
[t, x, n] = gather(T, T.x, height(T))
