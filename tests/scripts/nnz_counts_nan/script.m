ds = tabularTextDatastore('a.csv', 'TextscanFormats', {'%f', '%d8'}, 'ReadSize', READSIZE);
T = tall(ds);
[a, b, c] = gather(nnz(T.x), nnz(T.y), nnz(T.x > 0))
