ds = tabularTextDatastore('a.csv', 'ReadVariableNames', true);
T = tall(ds);
t = gather(T)
