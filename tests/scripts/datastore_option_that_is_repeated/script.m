ds = tabularTextDatastore('a.csv', 'ReadSize', 2, 'ReadSize', 2);
