ds = tabularTextDatastore('a.csv', 'Colour', 'red');
