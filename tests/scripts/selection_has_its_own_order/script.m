ds = tabularTextDatastore('a.csv', 'SelectedVariableNames', {'c', 'a'});
T = tall(ds);
t = gather(T)
