ds = tabularTextDatastore('a.csv', 'ReadSize', READSIZE);
T = tall(ds);
keep = (T.x > 0 & T.y < 5) | ~(T.g == 'b');
[t, n] = gather(T(keep, :), nnz(keep))
