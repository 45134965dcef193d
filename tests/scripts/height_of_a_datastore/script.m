ds = tabularTextDatastore('a.csv');
x = height(ds);
