ds = tabularTextDatastore('a.csv', 'ReadSize');
