ds = tabularTextDatastore('a.csv', 'TextscanFormats', {'%f', '%d8'});
T = tall(ds);
t = gather(T)
