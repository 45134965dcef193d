ds = tabularTextDatastore('a.csv', 'TextscanFormats', {'%d32', '%d64'});
T = tall(ds);
z = bitand(T.x, T.y);
