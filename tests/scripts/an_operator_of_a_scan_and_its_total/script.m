ds = tabularTextDatastore('a.csv', 'TextscanFormats', {'%f'}, 'ReadSize', READSIZE);
T = tall(ds);
c = cumsum(T.x);
[p, q] = gather(sum(T.x) - c, c(c > max(c) ./ 2))
