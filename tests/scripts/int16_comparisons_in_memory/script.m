ds = tabularTextDatastore('a.csv', 'TextscanFormats', {'%d16', '%d16'});
T = tall(ds);

[x, y] = gather(T.x, T.y);
a = x == y
b = x ~= y
c = x < y
d = x <= y
e = x > y
f = x >= y
