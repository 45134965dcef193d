ds = tabularTextDatastore('a.csv', 'TextscanFormats', {'%q', '%d8'}, 'ReadSize', READSIZE);
T = tall(ds);

A = gather(groupsummary(T, 'g', 'sum', 'v'));
B = gather(groupsummary(T, 'g', 'sumnative', 'v'));
C = gather(groupsummary(T, 'g', 'min', 'v'));
E = gather(groupsummary(T, 'g', 'max', 'v'));
F = gather(groupsummary(T, 'g', 'nnz', 'v'));
H = gather(groupsummary(T, 'g', 'nummissing', 'v'));
g = A.g
n = A.GroupCount
a = A.sum_v
b = B.sumnative_v
c = C.min_v
e = E.max_v
f = F.nnz_v
h = H.nummissing_v
