ds = tabularTextDatastore('a.csv');
ds.ReadSize = int8(1);
