x = 1
ds = tabularTextDatastore('a.csv');
