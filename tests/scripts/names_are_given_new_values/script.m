ds = tabularTextDatastore('a.csv', 'TextscanFormats', {'%f'}, 'ReadSize', READSIZE);
T = tall(ds);
x = T.x;
x = x + 1;
x = gather(x)
x = x(2)
x = 'text'
x = {'a'}
