ds = tabularTextDatastore('a.csv', 'TextscanFormats', {'%u8', '%u16'});
T = tall(ds);
z = bitand(T.x, T.y);
