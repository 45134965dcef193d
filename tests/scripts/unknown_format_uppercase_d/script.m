ds = tabularTextDatastore('a.csv', 'TextscanFormats', {'%D'});
