ds = tabularTextDatastore('a.csv', 'TextscanFormats', {'%f','%d8'});
ds.ReadSize = 1;
ds.TextscanFormats = {'%f','%d8'};
T = tall(ds);
t = gather(T)
