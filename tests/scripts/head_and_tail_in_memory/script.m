ds = tabularTextDatastore('a.csv', 'TextscanFormats', {'%f', '%q'});
T = tall(ds);
t = gather(T);
a = head(t.x, 2)
b = tail(t.y, 1)
c = head(t, 1)
d = tail(t.x, 0)
