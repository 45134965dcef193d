ds = tabularTextDatastore('a.csv', 'TextscanFormats', {'%f', '%q'}, 'ReadSize', READSIZE);
T = tall(ds);
[a, b] = gather(head(T, 1), tail(T, 2))
