ds = tabularTextDatastore('a.csv', 'TextscanFormats', {'%q', '%f'}, 'ReadSize', READSIZE);
T = tall(ds);
G = groupsummary(T, 'g', 'sum', 'v');
n = gather(G.GroupCount)
