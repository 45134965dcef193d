ds = tabularTextDatastore({'a.csv', 'b.csv', 'c.csv'}, 'ReadVariableNames', false);
T = tall(ds);
t = gather(T)
