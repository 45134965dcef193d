ds = tabularTextDatastore('a.csv', 'TextscanFormats', {'%q', '%q'});
T = tall(ds);
t = gather(T)
