ds = tabularTextDatastore('a.csv', 'Delimiter', ' ');
T = tall(ds);
t = gather(T)
