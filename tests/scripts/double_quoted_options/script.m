ds = tabularTextDatastore("a.csv", "ReadSize", 1);
T = tall(ds);
t = gather(T)
