ds = tabularTextDatastore('a.csv', 'TextscanFormats', {'%q', '%f'}, 'ReadSize', READSIZE);
T = tall(ds);
[u, w] = gather(unique(T.g), unique(T.v))
G = gather(groupsummary(T, 'g', 'nummissing', 'v'))
