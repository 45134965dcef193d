ds = tabularTextDatastore({'a.csv', 'b.csv'}, 'TextscanFormats', {'%q'}, 'ReadSize', READSIZE);
T = tall(ds);
[u, n] = gather(unique(T.x), numel(unique(T.x)))
