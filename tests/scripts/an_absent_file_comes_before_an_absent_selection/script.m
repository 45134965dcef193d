ds = tabularTextDatastore('none.csv', 'SelectedVariableNames', 'z');
