ds = tabularTextDatastore('a.csv');
x = ds.ReadSize;
