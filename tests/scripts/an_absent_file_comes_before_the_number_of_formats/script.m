ds = tabularTextDatastore('none.csv', 'TextscanFormats', {'%f'});
