ds = tabularTextDatastore({'a.csv', 'b.csv'}, 'ReadVariableNames', false);
T = tall(ds);
t = gather(T)
