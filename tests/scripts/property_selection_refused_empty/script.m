ds = tabularTextDatastore('a.csv');
ds.SelectedVariableNames = {};
