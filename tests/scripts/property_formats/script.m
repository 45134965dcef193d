ds = tabularTextDatastore('a.csv');
ds.TextscanFormats = {'%d8', '%q'};
T = tall(ds);
t = gather(T)
