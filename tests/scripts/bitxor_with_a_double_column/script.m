ds = tabularTextDatastore('a.csv', 'TextscanFormats', {'%d8', '%f'});
T = tall(ds);
x = bitxor(T.x, T.y);
