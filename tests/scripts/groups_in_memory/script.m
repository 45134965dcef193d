ds = tabularTextDatastore('a.csv', 'TextscanFormats', {'%q', '%d8'});
T = tall(ds);
t = gather(T);
G = groupsummary(t, 'g', 'sumnative', 'v')
n = groupsummary(t, 'g')
