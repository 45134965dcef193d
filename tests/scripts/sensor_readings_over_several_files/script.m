ds = tabularTextDatastore({'a.csv', 'b.csv'}, 'TextscanFormats', {'%d32', '%f'}, 'TreatAsMissing', {'-', 'n/a'}, 'ReadSize', READSIZE);
T = tall(ds);
warm = T(T.value > 20, :);
[n, k, top] = gather(height(T), height(warm), max(T.value))
G = gather(groupsummary(T, 'sensor', 'max', 'value'))
H = gather(groupsummary(T, 'sensor', 'nummissing', 'value'))
