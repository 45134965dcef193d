ds = tabularTextDatastore('a.csv', 'SelectedVariableNames', {'a', 'a'});
