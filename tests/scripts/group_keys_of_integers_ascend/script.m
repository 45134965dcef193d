ds = tabularTextDatastore('a.csv', 'TextscanFormats', {'%d8', '%u16'}, 'ReadSize', READSIZE);
T = tall(ds);
G = gather(groupsummary(T, 'g', 'max', 'v'));
G
k = G.g
m = G.max_v
