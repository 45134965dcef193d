ds = tabularTextDatastore('a.csv', 'TextscanFormats', {'%f', '%f', '%f'});
T = tall(ds);
x = groupsummary(T, 'g', 'sum', 'v').GroupCount + groupsummary(T, 'g', 'sum', 'w').GroupCount;
