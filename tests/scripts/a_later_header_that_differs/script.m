ds = tabularTextDatastore({'a.csv','b.csv'});
T = tall(ds);
t = gather(T)
