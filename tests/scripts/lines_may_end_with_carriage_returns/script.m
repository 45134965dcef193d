ds = tabularTextDatastore('a.csv');
T = tall(ds);
t = gather(T)
