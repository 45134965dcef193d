ds = tabularTextDatastore('a.csv');
T = tall(ds);
T.ReadSize = 1;
