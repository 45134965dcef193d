ds = tabularTextDatastore('a.csv', 'TextscanFormats', {'%f'}, 'ReadSize', READSIZE);
T = tall(ds);
a = gather(head(T.x ./ 2, 1))
