ds = tabularTextDatastore('a.csv', 'TextscanFormats', {'%u32', '%u32'});
T = tall(ds);

[x, y] = gather(T.x, T.y);
a = x == y
b = x ~= y
c = x < y
d = x <= y
e = x > y
f = x >= y
