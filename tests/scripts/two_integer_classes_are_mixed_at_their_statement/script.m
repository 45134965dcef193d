ds = tabularTextDatastore('a.csv', 'TextscanFormats', {'%d16', '%d32'});
T = tall(ds);
z = T.x + T.y;
