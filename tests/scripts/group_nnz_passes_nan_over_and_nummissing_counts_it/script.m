ds = tabularTextDatastore('a.csv', 'TextscanFormats', {'%q', '%f'}, 'ReadSize', READSIZE);
T = tall(ds);
A = gather(groupsummary(T, 'g', 'nnz', 'v'))
B = gather(groupsummary(T, 'g', 'nummissing', 'v'))
