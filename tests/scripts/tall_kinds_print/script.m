ds = tabularTextDatastore('a.csv', 'TextscanFormats', {'%f', '%q'});
T = tall(ds);
a = T.x > 1
b = T.y
c = any(a)
d = numel(T.x)
e = head(T)
f = groupsummary(T, 'y')
g = unique(T.y)
h = T.x
T(T.x > 1, :)
