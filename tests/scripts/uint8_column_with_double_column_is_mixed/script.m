ds = tabularTextDatastore('a.csv', 'TextscanFormats', {'%u8', '%f'});
T = tall(ds);
a = gather(T.x < T.y)
z = T.x - T.y;
