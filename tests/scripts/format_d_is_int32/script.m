ds = tabularTextDatastore('a.csv', 'TextscanFormats', {'%d', '%u'});
T = tall(ds);
[a, b] = gather(T.x, T.y)
