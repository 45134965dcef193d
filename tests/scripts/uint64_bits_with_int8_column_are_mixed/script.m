ds = tabularTextDatastore('a.csv', 'TextscanFormats', {'%u64', '%d8'});
T = tall(ds);
z = bitand(T.x, T.y);
