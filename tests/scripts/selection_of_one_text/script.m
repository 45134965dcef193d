ds = tabularTextDatastore('a.csv', 'SelectedVariableNames', 'b');
T = tall(ds);
t = gather(T)
