ds = tabularTextDatastore('a.csv', 'SelectedVariableNames', 'a');
ds.SelectedVariableNames = 'b';
T = tall(ds);
t = gather(T)
