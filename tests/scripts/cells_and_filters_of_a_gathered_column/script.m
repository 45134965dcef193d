ds = tabularTextDatastore('a.csv', 'TextscanFormats', {'%f'}, 'ReadSize', READSIZE);
T = tall(ds);
x = gather(T.x);
first = x(1)
big = x(x > first)
last = x(numel(x))
n = numel(x(x == last))
x(2)
ans + 1
d = gather(T.x)(2)
e = gather(T).x(1)
