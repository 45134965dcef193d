ds = tabularTextDatastore('a.csv', 'TextscanFormats', {'%d8', '%d16'});
T = tall(ds);
z = bitand(T.x, T.y);
