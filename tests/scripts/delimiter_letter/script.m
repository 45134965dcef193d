ds = tabularTextDatastore('a.csv', 'Delimiter', 'z');
T = tall(ds);
t = gather(T)
