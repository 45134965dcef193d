ds = tabularTextDatastore('a.csv', 'ReadSize', true);
