ds = tabularTextDatastore('none.csv', 'ReadSize', 0);
