ds = tabularTextDatastore('a.csv', 'TreatAsMissing', 'NA', 'TextscanFormats', {'%f', '%d8'});
T = tall(ds);
t = gather(T)
