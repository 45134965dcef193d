ds = tabularTextDatastore({'none.csv', 'a.csv'});
