ds = tabularTextDatastore('a.csv', 'TextscanFormats', {'%f'}, 'ReadSize', READSIZE);
T = tall(ds);
G = gather(groupsummary(T, 'x', 'sum', 'x'))
