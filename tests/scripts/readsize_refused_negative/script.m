ds = tabularTextDatastore('a.csv', 'ReadSize', -1);
