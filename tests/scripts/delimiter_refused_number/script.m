ds = tabularTextDatastore('a.csv', 'Delimiter', 1);
