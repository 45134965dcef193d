ds = tabularTextDatastore('a.csv', 'TextscanFormats', {'%d8'});
T = tall(ds);
[n, a, b, h] = gather(sum(T.x, 'native'), all(T.x > 0), any(T.x > 0), head(T.x))
m = gather(max(T.x))
