ds = tabularTextDatastore('a.csv', 'TreatAsMissing', {'NA', '-'});
T = tall(ds);
t = gather(T)
