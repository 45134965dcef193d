ds = tabularTextDatastore('a.csv');
ds.Delimiter = ';';
