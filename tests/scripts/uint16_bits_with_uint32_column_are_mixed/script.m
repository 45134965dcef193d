ds = tabularTextDatastore('a.csv', 'TextscanFormats', {'%u16', '%u32'});
T = tall(ds);
z = bitand(T.x, T.y);
