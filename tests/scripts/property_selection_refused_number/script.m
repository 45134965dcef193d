ds = tabularTextDatastore('a.csv');
ds.SelectedVariableNames = 1;
