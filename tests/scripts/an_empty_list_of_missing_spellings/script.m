ds = tabularTextDatastore('a.csv', 'TreatAsMissing', {});
T = tall(ds);
t = gather(T)
