ds = tabularTextDatastore('a.csv');
ds.ReadSize = 5
