ds = tabularTextDatastore('a.csv', 'TreatAsMissing', {'NA', '-', '-999'}, 'TextscanFormats', {'%f'});
T = tall(ds);
t = gather(T)
