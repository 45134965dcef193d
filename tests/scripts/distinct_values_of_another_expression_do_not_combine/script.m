ds = tabularTextDatastore('a.csv', 'TextscanFormats', {'%f'});
T = tall(ds);
x = unique(T.x) + unique(T.x + 0);
