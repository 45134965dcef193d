ds = tabularTextDatastore('a.csv', 'TextscanFormats', {'%d8', '%f', '%q'});
T = tall(ds);
t = gather(T)
