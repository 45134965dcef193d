ds = tabularTextDatastore('a.csv', 'TextscanFormats', {'%q', '%q'});
T = tall(ds);
[a, b, c] = gather(T.x == T.y, T.x < T.y, strcmp(T.x, T.y))
