ds = tabularTextDatastore('a.csv', 'readsize', 2);
