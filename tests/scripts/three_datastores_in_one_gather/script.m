ds = tabularTextDatastore('a.csv', 'ReadSize', READSIZE);
es = tabularTextDatastore('b.csv', 'TextscanFormats', {'%d8'});
fs = tabularTextDatastore('c.csv', 'ReadSize', READSIZE);
A = tall(ds);
B = tall(es);
C = tall(fs);
[a, b, c, d, e] = gather(sum(A.x), max(B.y), nnz(C.z > sum(A.x)), sum(A.x - double(max(B.y))), head(B.y, 1))
