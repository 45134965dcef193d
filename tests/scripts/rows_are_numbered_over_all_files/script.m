ds = tabularTextDatastore({'a.csv', 'b.csv'}, 'TextscanFormats', {'%f'});
T = tall(ds);
t = gather(T)
