ds = tabularTextDatastore({'a.csv', 'b.csv'}, 'ReadSize', READSIZE);
T = tall(ds);
top = T(T.v == max(T.v), :);
[top, first, last] = gather(top, head(top, 1), tail(top.k, 1))
