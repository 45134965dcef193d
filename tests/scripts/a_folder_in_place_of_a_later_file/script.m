ds = tabularTextDatastore({'a.csv', 'b.csv'});
T = tall(ds);
n = gather(height(T))
