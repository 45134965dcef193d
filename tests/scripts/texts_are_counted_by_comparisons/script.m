ds = tabularTextDatastore('a.csv', 'TextscanFormats', {'%q', '%q'}, 'ReadSize', READSIZE);
T = tall(ds);
[n, some, every, same] = gather(nnz(T.g == 'a'), any(strcmp(T.g, "z")), all(T.g ~= ''), nnz(T.g < T.h))
