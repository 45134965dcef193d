ds = tabularTextDatastore('a.csv', 'TextscanFormats', {'%f'}, 'ReadSize', READSIZE);
T = tall(ds);
a = cumsum(T.x);
b = T.x ./ 2;
[b, a] = gather(b, a)
