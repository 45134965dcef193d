ds = tabularTextDatastore('a.csv', 'TextscanFormats', {'%f', '%f'}, 'ReadSize', READSIZE);
T = tall(ds);
U = T(T.x > 1, :);
y = gather(U.y + T.x(T.x > 1))
