ds = tabularTextDatastore('a.csv', 'TextscanFormats', {'%f'}, 'ReadSize', READSIZE);
T = tall(ds);
[s, n, m, t] = gather(sum(T.x), numel(T.x), max(T.x), tail(T.x, 1))
