ds = tabularTextDatastore('a.csv', 'TextscanFormats', {'%f', '%q'});
T = tall(ds);
G = groupsummary(T, 'g', 'nnz', 'v');
