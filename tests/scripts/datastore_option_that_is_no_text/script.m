ds = tabularTextDatastore('a.csv', 1, 2);
