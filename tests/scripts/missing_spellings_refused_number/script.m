ds = tabularTextDatastore('a.csv', 'TreatAsMissing', 1);
