ds = tabularTextDatastore('a.csv', 'TextscanFormats', {'f'});
