ds = tabularTextDatastore('a.csv', 'SelectedVariableNames', {'a', 'z'});
