ds = tabularTextDatastore('a.csv');
ds.ReadSize = true;
