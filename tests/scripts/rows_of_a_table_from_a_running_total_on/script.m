ds = tabularTextDatastore('a.csv', 'ReadSize', READSIZE);
T = tall(ds);
t = gather(T(cumsum(T.v) > 5, :))
