ds = tabularTextDatastore('a.csv', 'TextscanFormats', {'%d64'});
T = tall(ds);
y = gather(double(T.x));
