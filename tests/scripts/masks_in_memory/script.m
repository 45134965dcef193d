ds = tabularTextDatastore('a.csv', 'TextscanFormats', {'%f', '%q'});
T = tall(ds);
t = gather(T);
a = t.y(t.x > 1)
b = t(t.x > 1, :)
c = t(t.x > 9, :)
d = t.x(t.x > 9)
