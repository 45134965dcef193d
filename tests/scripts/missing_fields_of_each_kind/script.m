ds = tabularTextDatastore('a.csv', 'TextscanFormats', {'%f', '%u16', '%q'});
T = tall(ds);
t = gather(T)
