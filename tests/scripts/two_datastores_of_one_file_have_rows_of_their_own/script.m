ds = tabularTextDatastore('a.csv');
e = tabularTextDatastore('a.csv');
T = tall(ds);
U = tall(e);
x = T.a + U.a;
