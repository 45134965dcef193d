ds = tabularTextDatastore('a.csv', 'ReadSize', int8(3));
