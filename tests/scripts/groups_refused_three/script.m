ds = tabularTextDatastore('a.csv', 'TextscanFormats', {'%f', '%f'});
T = tall(ds);
G = groupsummary(T, 'g', 'sum');
