ds = tabularTextDatastore('a.csv');
e = ds;
T = tall(ds);
U = tall(e);
x = gather(T.a + U.a)
