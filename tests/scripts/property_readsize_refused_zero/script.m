ds = tabularTextDatastore('a.csv');
ds.ReadSize = 0;
