ds = tabularTextDatastore('a.csv', 'TextscanFormats', {'%f', '%d8', '%q'}, 'ReadSize', READSIZE);
T = tall(ds);
a = +true
b = -true
c = ~0
d = ~int8(5)
e = abs(false)
f = - - 3
