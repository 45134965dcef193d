ds = tabularTextDatastore('a.csv', 'TextscanFormats', {'%q', '%q'});
T = tall(ds);
[x, y] = gather(T.x, T.y);
a = x == 'b'
b = x ~= 'b'
c = x < 'b'
d = x <= 'b'
e = x > 'b'
f = x >= 'b'
