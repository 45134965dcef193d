ds = tabularTextDatastore('a.csv', 'TextscanFormats', {'%d16', '%d32'});
T = tall(ds);
z = bitand(T.x, T.y);
