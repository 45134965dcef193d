ds = tabularTextDatastore('a.csv', 'TextscanFormats', {'%f', '%d8', '%q'}, 'ReadSize', READSIZE);
T = tall(ds);
m = T.x > 2;
k = 2;
[a, b, c] = gather(T.x(m) - T.x(T.x > 2), T.x(T.x > k) - T.x(m), T.x(T.x > 1 + 1) - T.x(m))
