ds = tabularTextDatastore('a.csv', 'TextscanFormats', {'%d8'});
T = tall(ds);
a = T.x
b = max(T.x)
c = T.x > 1
d = cumsum(T.x)
