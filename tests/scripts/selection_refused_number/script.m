ds = tabularTextDatastore('a.csv', 'SelectedVariableNames', 1);
