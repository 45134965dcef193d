ds = tabularTextDatastore('a.csv', 'TextscanFormats', {'%f', '%d8', '%q'}, 'ReadSize', READSIZE);
T = tall(ds);
ds.ReadSize = 'file';
U = tall(ds);
y = gather(T.x + max(U.x))
z = T.x + U.x;
