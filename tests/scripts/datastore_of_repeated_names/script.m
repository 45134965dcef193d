ds = tabularTextDatastore({'a.csv', 'a.csv'})
