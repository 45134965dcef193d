ds = tabularTextDatastore('a.csv', 'TextscanFormats', {'%d8', '%f'}, 'ReadSize', READSIZE);
T = tall(ds);
[a, b, c] = gather(sum(T.x), sum(T.y), sum(T.x > 1))
