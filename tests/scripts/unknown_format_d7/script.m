ds = tabularTextDatastore('a.csv', 'TextscanFormats', {'%d7'});
