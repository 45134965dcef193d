ds = tabularTextDatastore('a.csv', 'ReadSize', READSIZE);
T = tall(ds);
G = gather(groupsummary(T(T.v > 0, :), 'g', 'max', 'v'));
m = G.max_v
G(m > 3, :)
best = G.g(2)
n = height(G)
