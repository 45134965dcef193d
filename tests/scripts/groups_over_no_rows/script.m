ds = tabularTextDatastore('a.csv', 'TextscanFormats', {'%q', '%d8'}, 'ReadSize', READSIZE);
T = tall(ds);
G = gather(groupsummary(T, 'g', 'max', 'v'));
G
m = G.max_v
