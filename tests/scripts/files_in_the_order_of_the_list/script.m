ds = tabularTextDatastore({'b.csv', 'a.csv'});
T = tall(ds);
t = gather(T)
