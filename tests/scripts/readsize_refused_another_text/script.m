ds = tabularTextDatastore('a.csv', 'ReadSize', 'all');
