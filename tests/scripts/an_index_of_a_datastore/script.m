ds = tabularTextDatastore('a.csv');
x = ds(1);
