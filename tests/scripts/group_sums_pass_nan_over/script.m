ds = tabularTextDatastore('a.csv', 'TextscanFormats', {'%q', '%f'}, 'ReadSize', READSIZE);
T = tall(ds);
A = gather(groupsummary(T, 'g', 'sum', 'v'))
B = gather(groupsummary(T, 'g', 'sumnative', 'v'))
