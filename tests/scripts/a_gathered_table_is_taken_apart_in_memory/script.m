ds = tabularTextDatastore('a.csv', 'TextscanFormats', {'%f', '%d8', '%q'}, 'ReadSize', READSIZE);
T = tall(ds);
t = gather(T);
u = tail(t, 1)
v = unique(t.g)
w = groupsummary(t, 'g', 'min', 'x')
x = t.i(1) + t.i(2)
