ds = tabularTextDatastore('a.csv', 'TextscanFormats', {'%f'});
M = gather(tall(ds));
G = groupsummary(M, 'GroupCount');
