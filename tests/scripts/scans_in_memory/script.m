ds = tabularTextDatastore('a.csv', 'TextscanFormats', {'%d8', '%f'});
T = tall(ds);
[x, y] = gather(T.x, T.y);
a = cumsum(x)
b = cummin(y)
c = cummax(y)
d = cumsum(y)
