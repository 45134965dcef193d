ds = tabularTextDatastore('air.csv', 'TreatAsMissing', 'NA');
ds.SelectedVariableNames = {'Carrier', 'DepDelay'};
T = tall(ds);
late = T(T.DepDelay > 0, :);
[n, k] = gather(height(T), height(late))
G = gather(groupsummary(T, 'Carrier', 'sum', 'DepDelay'))
