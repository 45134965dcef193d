ds = tabularTextDatastore({'a.csv', 'b.csv', 'c.csv'});
T = tall(ds);
t = gather(T)
