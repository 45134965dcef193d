ds = tabularTextDatastore('a.csv', 'TextscanFormats', {'%f', '%d8', '%q'}, 'ReadSize', READSIZE);
T = tall(ds);
U = T(T.i > 0, :);
V = U(U.x > 2, :);
[V, G] = gather(V, groupsummary(U, 'g', 'sum', 'i'))
