ds = tabularTextDatastore('a.csv');
T = tall(ds);
ds.ReadSize = 1;
U = tall(ds);
x = T.a + U.a;
