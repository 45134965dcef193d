ds = tabularTextDatastore('a.csv', 'Delimiter', 'é');
