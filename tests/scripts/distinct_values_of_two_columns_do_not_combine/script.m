ds = tabularTextDatastore('a.csv', 'TextscanFormats', {'%f', '%f'});
T = tall(ds);
x = unique(T.x) + unique(T.y);
