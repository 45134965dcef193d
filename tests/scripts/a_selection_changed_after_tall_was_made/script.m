ds = tabularTextDatastore('a.csv', 'TextscanFormats', {'%d8', '%q'}, 'ReadSize', READSIZE);
T = tall(ds);
ds.SelectedVariableNames = 'b';
U = tall(ds);
ds.TextscanFormats = {'%f', '%f'}
V = tall(ds);
[t, u] = gather(T, U)
v = gather(V)
