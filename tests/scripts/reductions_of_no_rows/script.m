ds = tabularTextDatastore('a.csv', 'TextscanFormats', {'%f', '%d8'}, 'ReadSize', READSIZE);
T = tall(ds);
[a, b, c, d, e, f] = gather(sum(T.x), sum(T.x, 'omitnan'), nnz(T.x), numel(T.x), height(T), sum(T.y))
