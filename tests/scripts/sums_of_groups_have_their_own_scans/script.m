ds = tabularTextDatastore('a.csv', 'TextscanFormats', {'%q', '%d16'}, 'ReadSize', READSIZE);
T = tall(ds);
G = groupsummary(T, 'g', 'sumnative', 'v');
[total, share, top] = gather(cumsum(G.sumnative_v), G.sumnative_v - max(G.sumnative_v), G(G.GroupCount > 1, :))
