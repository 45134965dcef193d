ds = tabularTextDatastore('a.csv', 'TextscanFormats', {'%f', '%d8', '%q'}, 'ReadSize', READSIZE);
T = tall(ds);
a = T.x
b = max(T.x)
c = head(T, 2)
d = T.g == 'a'
e = groupsummary(T, 'g')
f = unique(T.i)
