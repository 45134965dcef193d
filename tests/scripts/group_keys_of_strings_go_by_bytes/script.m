ds = tabularTextDatastore('a.csv', 'TextscanFormats', {'%q'}, 'ReadSize', READSIZE);
T = tall(ds);
G = gather(groupsummary(T, 'x'))
