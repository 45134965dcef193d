ds = tabularTextDatastore('a.csv', 'TreatAsMissing', 'NA', 'TextscanFormats', {'%q'});
T = tall(ds);
t = gather(T)
