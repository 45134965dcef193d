ds = tabularTextDatastore('a.csv');
x = head(ds);
