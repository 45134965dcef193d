ds = tabularTextDatastore('a.csv', 'TextscanFormats', {'%q', '%u64'}, 'ReadSize', READSIZE);
T = tall(ds);
n = gather(groupsummary(T, 'g', 'sumnative', 'v'))
m = gather(groupsummary(T, 'g', 'sum', 'v'))
