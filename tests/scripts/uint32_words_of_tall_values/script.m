ds = tabularTextDatastore('a.csv', 'TextscanFormats', {'%u32'});
T = tall(ds);
a = T.x
b = max(T.x)
c = T.x > 1
d = cumsum(T.x)
