ds = tabularTextDatastore('a.csv', 'TextscanFormats', {'%q', '%q'}, 'ReadSize', READSIZE);
T = tall(ds);
G = gather(groupsummary(T, 'g', 'nummissing', 'v'))
