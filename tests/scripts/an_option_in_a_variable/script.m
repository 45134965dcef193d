o = 'ReadSize';
n = 2;
f = {'a.csv'};
ds = tabularTextDatastore(f, o, n)
