ds = tabularTextDatastore('a.csv', 'TextscanFormats', {'%d8'}, 'ReadSize', 1000);
T = tall(ds);
s = gather(sum(T.x))
