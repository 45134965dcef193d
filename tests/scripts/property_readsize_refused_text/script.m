ds = tabularTextDatastore('a.csv');
ds.ReadSize = 'x';
