ds = tabularTextDatastore('a.csv', 'TextscanFormats', {'%f'});
T = tall(ds);
max = 5;
x = max + 1
y = min(T.x)
