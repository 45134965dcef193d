ds = tabularTextDatastore('a.csv', 'ReadSize', READSIZE);
e = tabularTextDatastore('b.csv', 'ReadSize', READSIZE);
T = tall(ds);
U = tall(e);
x = gather(T.x - max(U.x - min(T.x)))
