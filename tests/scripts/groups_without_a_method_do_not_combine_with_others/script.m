ds = tabularTextDatastore('a.csv', 'TextscanFormats', {'%f', '%f'});
T = tall(ds);
x = groupsummary(T, 'g').GroupCount + groupsummary(T, 'g', 'sum', 'v').GroupCount;
