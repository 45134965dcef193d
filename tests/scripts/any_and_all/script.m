ds = tabularTextDatastore('a.csv', 'TextscanFormats', {'%f', '%f'}, 'ReadSize', READSIZE);
T = tall(ds);
[a, b, c, d] = gather(any(T.x > 2), all(T.x > 2), any(T.y > 2), all(T.y > 0))
