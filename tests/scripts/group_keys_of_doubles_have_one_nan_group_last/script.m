ds = tabularTextDatastore('a.csv', 'TextscanFormats', {'%f', '%f'}, 'ReadSize', READSIZE);
T = tall(ds);
G = gather(groupsummary(T, 'g', 'sum', 'v'))
