ds = tabularTextDatastore('a.csv');
T = tall(ds);
U = tall(ds);
x = gather(T.a + U.a)
