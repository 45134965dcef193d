ds = tabularTextDatastore('a.csv', 'TextscanFormats', {'%f', '%f'}, 'ReadSize', READSIZE);
T = tall(ds);
U = T(T.x > 1, :);
V = U(U.y < 30, :);
v = gather(V)
w = gather(U.x(U.y < 30))
