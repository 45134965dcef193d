ds = tabularTextDatastore('a.csv', 'ReadVariableNames', false, 'SelectedVariableNames', 'Var2');
T = tall(ds);
t = gather(T)
