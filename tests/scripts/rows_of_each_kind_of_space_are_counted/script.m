ds = tabularTextDatastore('a.csv', 'ReadSize', READSIZE);
T = tall(ds);
[a, b, c, d, e] = gather(height(T), numel(head(T.v, 2)), height(T(T.v > 1, :)), numel(unique(T.v)), height(groupsummary(T, 'g')))
