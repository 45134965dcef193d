ds = tabularTextDatastore('a.csv', 'TextscanFormats', {'%f', '%d8', '%q'}, 'ReadSize', READSIZE);
T = tall(ds);
m = T.x > 1;
[a, b, c, d, e, f, g, h] = gather(T.x, T.y(m), sum(T.y, 'native'), cumsum(T.y), unique(T.z), head(T(m, :), 1), any(m), groupsummary(T, 'z', 'max', 'y'))
