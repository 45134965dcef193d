ds = tabularTextDatastore('a.csv', 'TextscanFormats', {'%d8', '%f'});
T = tall(ds);
x = max(T.i) + T.x;
