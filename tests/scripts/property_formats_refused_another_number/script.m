ds = tabularTextDatastore('a.csv');
ds.TextscanFormats = {'%d8'};
