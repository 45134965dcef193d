ds = tabularTextDatastore('a.csv', 'TextscanFormats', {'%d8', '%d8'}, 'ReadSize', READSIZE);
T = tall(ds);

a = gather(groupsummary(T, 'g', 'sum', 'v'))
b = gather(groupsummary(T, 'g', 'sumnative', 'v'))
