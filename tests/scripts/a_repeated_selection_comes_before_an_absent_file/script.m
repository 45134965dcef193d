ds = tabularTextDatastore('none.csv', 'SelectedVariableNames', {'a', 'a'});
