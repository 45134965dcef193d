x = 1;
ds = tabularTextDatastore('none.csv')
