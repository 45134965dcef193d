ds = tabularTextDatastore('a.csv', 'TextscanFormats', {'%f', '%f'});
T = tall(ds);
[x, y] = gather(T.x, T.y);
a = 10 - x
b = mod(10, y)
c = 3 < x
d = 20 ./ y
