ds = tabularTextDatastore('a.csv', 'TextscanFormats', {'%f'});
T = tall(ds);
y = T.x ./ 0;
ds.TextscanFormats = {'%d8'};
U = tall(ds);
v = gather(U.x)
