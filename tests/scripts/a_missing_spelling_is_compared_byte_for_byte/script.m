ds = tabularTextDatastore('a.csv', 'TreatAsMissing', 'NA', 'TextscanFormats', {'%f'});
T = tall(ds);
t = gather(T)
