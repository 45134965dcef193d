ds = tabularTextDatastore('none.csv', 'TextscanFormats', {'%s'});
