ds = tabularTextDatastore('a.csv', 'TextscanFormats', {'%f', '%q'}, 'ReadSize', READSIZE);
T = tall(ds);
t = gather(T)
