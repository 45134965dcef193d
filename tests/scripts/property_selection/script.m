ds = tabularTextDatastore('a.csv');
ds.SelectedVariableNames = {'b', 'a'};
T = tall(ds);
t = gather(T)
