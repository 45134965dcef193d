ds = tabularTextDatastore('a.csv', 'TextscanFormats', {'%f', '%f'});
T = tall(ds);
[x, y] = gather(T.x, T.y);
a = 4 == x
b = 4 ~= x
c = 4 < x
d = 4 <= x
e = 4 > x
f = 4 >= x
