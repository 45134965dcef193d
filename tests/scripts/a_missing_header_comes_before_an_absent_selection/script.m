ds = tabularTextDatastore('a.csv', 'SelectedVariableNames', 'z');
