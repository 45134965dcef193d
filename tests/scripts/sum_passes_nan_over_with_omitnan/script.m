ds = tabularTextDatastore('a.csv', 'TextscanFormats', {'%f', '%d8'}, 'ReadSize', READSIZE);
T = tall(ds);
[a, b, c, d, e] = gather(sum(T.x, 'omitnan'), sum(T.x, 'native', 'omitnan'), sum(T.x, 'omitnan', 'native'), sum(T.y, 'native', 'omitnan'), sum(T.y, 'omitnan'))
