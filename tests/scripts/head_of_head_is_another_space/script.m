ds = tabularTextDatastore('a.csv', 'TextscanFormats', {'%f'});
T = tall(ds);
x = head(head(T.x, 2), 2) + head(T.x, 2);
