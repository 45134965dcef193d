ds = tabularTextDatastore('a.csv', 'TextscanFormats', {'%q', '%u64'}, 'ReadSize', READSIZE);
T = tall(ds);

A = gather(groupsummary(T, 'g', 'sum', 'v'));
B = gather(groupsummary(T, 'g', 'sumnative', 'v'));
C = gather(groupsummary(T, 'g', 'min', 'v'));
D = gather(groupsummary(T, 'g', 'max', 'v'));
E = gather(groupsummary(T, 'g', 'nnz', 'v'));
F = gather(groupsummary(T, 'g', 'nummissing', 'v'));
a = A.sum_v
b = B.sumnative_v
c = C.min_v
d = D.max_v
e = E.nnz_v
f = F.nummissing_v
