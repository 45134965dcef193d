ds = tabularTextDatastore('a.csv', 'TextscanFormats', {'%f', '%q'});
T = tall(ds);
t = gather(T);
a = t.x > 1
b = t.x
c = t.y
