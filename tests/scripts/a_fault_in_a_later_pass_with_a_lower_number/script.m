ds = tabularTextDatastore('a.csv', 'TextscanFormats', {'%f'}, 'ReadSize', READSIZE);
T = tall(ds);
m = max(T.x);
a = T.x ./ (T.x - m);
b = T.x ./ 0;
[b, a] = gather(b, a)
