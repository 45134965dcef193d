ds = tabularTextDatastore('a.csv', 'TextscanFormats', {'%f', '%q'});
T = tall(ds);
G = groupsummary(T, 'sum_v', 'sum', 'v');
