ds = tabularTextDatastore('a.csv', 'TextscanFormats', {'%f'});
T = tall(ds);
[x, y] = gather(int8(T.x), int16(head(T.x, 1)));
z = x + y
