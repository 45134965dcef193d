ds = tabularTextDatastore('a.csv', 'SelectedVariableNames', {});
