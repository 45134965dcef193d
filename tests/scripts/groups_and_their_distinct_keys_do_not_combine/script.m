ds = tabularTextDatastore('a.csv', 'TextscanFormats', {'%f'});
T = tall(ds);
x = groupsummary(T, 'g').GroupCount + unique(T.g);
