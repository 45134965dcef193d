ds = tabularTextDatastore('a.csv', 'TextscanFormats', {'%*q'});
