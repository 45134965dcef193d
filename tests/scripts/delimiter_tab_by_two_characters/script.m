ds = tabularTextDatastore('a.csv', 'Delimiter', '\t');
T = tall(ds);
t = gather(T)
