ds = tabularTextDatastore('a.csv', 'TextscanFormats', {'%q', '%f'}, 'ReadSize', READSIZE);
T = tall(ds);
U = T(T.v > 1, :);
G = gather(groupsummary(U, 'g', 'sum', 'v'))
