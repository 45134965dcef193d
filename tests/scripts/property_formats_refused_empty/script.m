ds = tabularTextDatastore('a.csv');
ds.TextscanFormats = {};
