ds = tabularTextDatastore('a.csv');
T = tall(ds);
x = T.x;
