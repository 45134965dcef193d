ds = tabularTextDatastore('a.csv', 'ReadSize', 2147483647);
T = tall(ds);
t = gather(T)
