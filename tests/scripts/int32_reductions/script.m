ds = tabularTextDatastore('a.csv', 'TextscanFormats', {'%d32'}, 'ReadSize', READSIZE);
T = tall(ds);

[s, a, b, n, k] = gather(sum(T.x), min(T.x), max(T.x), nnz(T.x), numel(T.x))
