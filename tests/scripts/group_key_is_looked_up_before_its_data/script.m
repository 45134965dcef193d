ds = tabularTextDatastore('a.csv', 'TextscanFormats', {'%f'});
T = tall(ds);
G = groupsummary(T, 'y', 'sum', 'z');
