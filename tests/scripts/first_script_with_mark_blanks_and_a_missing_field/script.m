ds = tabularTextDatastore('a.csv', 'TextscanFormats', {'%d16'});
T = tall(ds);
s = sum(T.x, 'native');
s = gather(s)
