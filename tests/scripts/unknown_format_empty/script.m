ds = tabularTextDatastore('a.csv', 'TextscanFormats', {''});
