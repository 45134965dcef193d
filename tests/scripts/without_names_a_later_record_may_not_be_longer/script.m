ds = tabularTextDatastore('a.csv', 'ReadVariableNames', false);
T = tall(ds);
t = gather(T)
