ds = tabularTextDatastore('a.csv');
x = gather(ds);
