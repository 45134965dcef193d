ds = tabularTextDatastore('a.csv', 'TextscanFormats', {'%f', '%f'}, 'ReadSize', READSIZE);
T = tall(ds);
[a, b, c] = gather(T.x .* T.y, T.x .* 3, T.x | T.y)
