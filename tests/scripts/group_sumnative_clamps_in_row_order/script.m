ds = tabularTextDatastore('a.csv', 'TextscanFormats', {'%q', '%d8'}, 'ReadSize', READSIZE);
T = tall(ds);
G = gather(groupsummary(T, 'g', 'sumnative', 'v'))
