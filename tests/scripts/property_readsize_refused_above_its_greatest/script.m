ds = tabularTextDatastore('a.csv');
ds.ReadSize = 2147483648;
