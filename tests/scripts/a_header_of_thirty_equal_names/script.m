ds = tabularTextDatastore('a.csv', 'SelectedVariableNames', {'x_29', 'x', 'x_1'});
T = tall(ds);
t = gather(T)
