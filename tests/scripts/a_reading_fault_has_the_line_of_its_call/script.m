% one
% two
ds = tabularTextDatastore('a.csv', 'TextscanFormats', {'%f'});
T = tall(ds);
v = T.x;
w = v + 1;
w = gather(w)
