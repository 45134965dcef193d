ds = tabularTextDatastore('a.csv', 'TextscanFormats', {'%u32', '%u64'});
T = tall(ds);
z = bitand(T.x, T.y);
