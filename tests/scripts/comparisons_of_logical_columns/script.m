ds = tabularTextDatastore('a.csv', 'TextscanFormats', {'%f', '%f'});
T = tall(ds);
[p, q] = gather(T.x > 0, T.y > 0);
a = p == q
b = p ~= q
c = p < q
d = p <= q
e = p > q
f = p >= q
