ds = tabularTextDatastore('a.csv', 'TextscanFormats', {'%q', '%f'}, 'ReadSize', READSIZE);
T = tall(ds);
G = gather(groupsummary(head(T, 3), 'g', 'sum', 'v'))
