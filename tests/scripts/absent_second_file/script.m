ds = tabularTextDatastore({'a.csv', 'none.csv'});
T = tall(ds);
v = gather(T.x)
