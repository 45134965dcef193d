ds = tabularTextDatastore('a.csv');
ds.SelectedVariableNames = {'x', 'x'};
