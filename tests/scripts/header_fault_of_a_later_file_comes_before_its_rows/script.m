ds = tabularTextDatastore({'a.csv', 'b.csv'}, 'TextscanFormats', {'%f'});
T = tall(ds);
v = gather(T.x)
