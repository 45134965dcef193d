ds = tabularTextDatastore('a.csv', 'Delimiter', '"');
