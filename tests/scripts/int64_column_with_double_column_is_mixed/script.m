ds = tabularTextDatastore('a.csv', 'TextscanFormats', {'%d64', '%f'});
T = tall(ds);
a = gather(T.x < T.y)
z = T.x - T.y;
