ds = tabularTextDatastore('a.csv', 'TextscanFormats', {'%q', '%f'}, 'ReadSize', READSIZE);
T = tall(ds);
G = groupsummary(T, 'g', 'sum', 'v');
[n, H, m] = gather(height(G), G(G.GroupCount > 1, :), max(G.sum_v))
