ds = tabularTextDatastore('a.csv', 'TextscanFormats', {'%d8', '%f'}, 'ReadSize', READSIZE);
T = tall(ds);
y = gather(T.x + (T.y > 5))
