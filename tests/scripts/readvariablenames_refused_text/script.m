ds = tabularTextDatastore('a.csv', 'ReadVariableNames', 'false');
