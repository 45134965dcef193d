d = tabularTextDatastore('a.csv');
x = gather(tall(d));
ds = tabularTextDatastore('a.csv', 'ReadSize', x.x);
