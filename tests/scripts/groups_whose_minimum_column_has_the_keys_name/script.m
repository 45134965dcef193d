ds = tabularTextDatastore('a.csv', 'TextscanFormats', {'%f', '%f'});
T = tall(ds);
G = groupsummary(T, 'min_v', 'min', 'v');
