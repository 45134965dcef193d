ds = tabularTextDatastore({'a.csv', 'none.csv'}, 'TextscanFormats', {'%f'});
T = tall(ds);
t = gather(T)
