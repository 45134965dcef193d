ds = tabularTextDatastore('a.csv', 'ReadSize', 2147483648);
