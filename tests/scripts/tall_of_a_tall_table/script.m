ds = tabularTextDatastore('a.csv');
T = tall(ds);
U = tall(T);
