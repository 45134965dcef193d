ds = tabularTextDatastore('a.csv', 'TextscanFormats', {'%d8', '%u64', '%f', '%q'});
T = tall(ds);
t = gather(T)
T
