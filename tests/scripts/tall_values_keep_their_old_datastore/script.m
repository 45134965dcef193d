ds = tabularTextDatastore('a.csv');
T = tall(ds);
ds.SelectedVariableNames = 'b';
t = gather(T)
