ds = tabularTextDatastore('a.csv', 'TextscanFormats', {'%s'});
