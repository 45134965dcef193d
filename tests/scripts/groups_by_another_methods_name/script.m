ds = tabularTextDatastore('a.csv', 'TextscanFormats', {'%f', '%f'});
T = tall(ds);
G = gather(groupsummary(T, 'sum_v', 'min', 'v'))
