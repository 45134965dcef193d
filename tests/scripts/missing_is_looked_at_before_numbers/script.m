ds = tabularTextDatastore('a.csv', 'TreatAsMissing', '5', 'TextscanFormats', {'%d8'});
T = tall(ds);
t = gather(T)
