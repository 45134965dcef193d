ds = tabularTextDatastore({'a.csv', 'b.csv'}, 'TextscanFormats', {'%q', '%d8'}, 'ReadSize', READSIZE);
G = gather(groupsummary(tall(ds), 'g', 'sumnative', 'v'))
