ds = tabularTextDatastore('a.csv', 'TextscanFormats', {'%d8', '%d16'});
T = tall(ds);
z = T.x + head(T.y);
