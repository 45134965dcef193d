ds = tabularTextDatastore('a.csv', 'ReadSize', {'file'});
