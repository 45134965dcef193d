ds = tabularTextDatastore('a.csv', 'TextscanFormats', {'%d64', '%u8'});
T = tall(ds);
z = bitand(T.x, T.y);
