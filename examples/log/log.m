% A million requests, each of another user. Run make.py first: it writes log.csv.
ds = tabularTextDatastore('log.csv', 'TextscanFormats', {'%q', '%u16'});
T = tall(ds);
G = groupsummary(T, 'user', 'sum', 'milliseconds');
[requests, users, total, first] = gather(height(T), height(G), sum(T.milliseconds), head(G, 3))
