ds = tabularTextDatastore('a.csv');
x = numel(ds);
