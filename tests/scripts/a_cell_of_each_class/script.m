ds = tabularTextDatastore('a.csv', 'TextscanFormats', {'%d8', '%q', '%u64'});
T = tall(ds);
t = gather(T);
a = t.x(2)
b = t.y(2)
c = t.z(1)
d = (t.x > 1)(2)
