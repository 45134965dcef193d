ds = tabularTextDatastore('a.csv', 'TextscanFormats', {'%f', '%d8', '%q'}, 'ReadSize', READSIZE);
T = tall(ds);
G = groupsummary(T, 'g', 'sum', 'i');
q = gather(G.sum_i ./ 3)
