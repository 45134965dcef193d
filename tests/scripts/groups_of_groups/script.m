ds = tabularTextDatastore('a.csv', 'TextscanFormats', {'%q', '%f'}, 'ReadSize', READSIZE);
T = tall(ds);
G = groupsummary(T, 'g', 'sum', 'v');
H = gather(groupsummary(G, 'GroupCount_', 'sum', 'sum_v'))
