ds = tabularTextDatastore('a.csv', 'TextscanFormats', {'%u64'}, 'ReadSize', READSIZE);
T = tall(ds);

[s, a, b, c] = gather(sum(T.x, 'native'), cumsum(T.x), cummin(T.x), cummax(T.x))
