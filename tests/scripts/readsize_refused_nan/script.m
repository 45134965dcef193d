ds = tabularTextDatastore('a.csv', 'ReadSize', NaN);
