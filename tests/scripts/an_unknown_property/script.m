ds = tabularTextDatastore('a.csv');
ds.Files = {'b.csv'};
