ds = tabularTextDatastore('a.csv', 'ReadVariableNames', 1);
