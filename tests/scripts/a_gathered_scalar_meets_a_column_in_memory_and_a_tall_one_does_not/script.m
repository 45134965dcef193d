ds = tabularTextDatastore('a.csv', 'TextscanFormats', {'%f', '%d8', '%q'}, 'ReadSize', READSIZE);
T = tall(ds);
x = gather(T.x);
y = gather(max(T.x)) + x
z = max(T.x) + x
