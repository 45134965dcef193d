ds = tabularTextDatastore('a.csv');
T = tall(ds);
v = gather(T.x)
