ds = tabularTextDatastore('a.csv');
ds.SelectedVariableNames = 'b,c';
T = tall(ds);
t = gather(T)
