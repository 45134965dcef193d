ds = tabularTextDatastore('a.csv');
T = tall(ds, ds);
