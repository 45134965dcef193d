ds = tabularTextDatastore('a.csv', 'TextscanFormats', {'%f', '%f'});
T = tall(ds);
[x, y] = gather(T.x, T.y);
a = x == 4
b = x ~= 4
c = x < 4
d = x <= 4
e = x > 4
f = x >= 4
