ds = tabularTextDatastore('a.csv', 'TextscanFormats', {'%f'});
T = tall(ds);
a = gather(sum(T.x > 1, 'omitnan'))
