ds = tabularTextDatastore('a.csv', 'TextscanFormats', {'%q', '%u16'}, 'ReadSize', READSIZE);
T = tall(ds);

a = gather(groupsummary(T, 'g', 'sum', 'v'))
b = gather(groupsummary(T, 'g', 'sumnative', 'v'))
c = gather(groupsummary(T, 'g', 'min', 'v'))
d = gather(groupsummary(T, 'g', 'max', 'v'))
e = gather(groupsummary(T, 'g', 'nnz', 'v'))
f = gather(groupsummary(T, 'g', 'nummissing', 'v'))
