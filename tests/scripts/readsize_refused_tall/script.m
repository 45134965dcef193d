d = tabularTextDatastore('a.csv');
T = tall(d);
ds = tabularTextDatastore('a.csv', 'ReadSize', max(T.x));
