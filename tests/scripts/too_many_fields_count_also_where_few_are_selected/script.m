ds = tabularTextDatastore('a.csv', 'SelectedVariableNames', 'a');
T = tall(ds);
t = gather(T)
