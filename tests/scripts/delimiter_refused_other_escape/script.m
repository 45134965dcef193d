ds = tabularTextDatastore('a.csv', 'Delimiter', '\n');
