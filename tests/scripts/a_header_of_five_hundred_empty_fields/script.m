ds = tabularTextDatastore('a.csv', 'SelectedVariableNames', {'Var500', 'Var1'})
T = tall(ds);
t = gather(T)
