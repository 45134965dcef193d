ds = tabularTextDatastore('a.csv', 'TextscanFormats', {'%f'}, 'ReadSize', READSIZE);
T = tall(ds);
[a, b, c] = gather(unique(T.x(T.x > 1)), sum(unique(T.x)), numel(unique(T.x)))
