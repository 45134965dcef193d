ds = tabularTextDatastore('a.csv', 'TextscanFormats', {'%q', '%q'});
T = tall(ds);
[x, y] = gather(T.x, T.y);
a = 'b' == x
b = 'b' ~= x
c = 'b' < x
d = 'b' <= x
e = 'b' > x
f = 'b' >= x
