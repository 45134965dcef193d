ds = tabularTextDatastore('a.csv');
ds.ReadSize = 1;
T = tall(ds);
t = gather(T)
