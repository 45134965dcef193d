ds = tabularTextDatastore('a.csv', 'ReadSize', 0);
