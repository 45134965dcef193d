ds = tabularTextDatastore({'a.csv', 'b.csv', 'c.csv'}, 'ReadSize', READSIZE);
T = tall(ds);
t = gather(tail(T(T.v > 0, :), 2))
