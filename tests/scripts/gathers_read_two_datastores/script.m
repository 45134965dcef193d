ds = tabularTextDatastore('a.csv', 'ReadSize', READSIZE);
e = tabularTextDatastore('b.csv', 'ReadSize', READSIZE);
T = tall(ds);
U = tall(e);
[a, b, c] = gather(sum(T.x), sum(U.x) - max(T.x), U.x)
