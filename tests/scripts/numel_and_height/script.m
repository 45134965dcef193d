ds = tabularTextDatastore('a.csv', 'TextscanFormats', {'%f', '%q'}, 'ReadSize', READSIZE);
T = tall(ds);
[a, b, c, d] = gather(numel(T.x), numel(T.y), height(T), numel(max(T.x)))
