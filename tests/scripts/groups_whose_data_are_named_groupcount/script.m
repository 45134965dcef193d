ds = tabularTextDatastore('a.csv', 'TextscanFormats', {'%q', '%f'}, 'ReadSize', READSIZE);
T = tall(ds);
G = gather(groupsummary(T, 'g', 'max', 'GroupCount'))
