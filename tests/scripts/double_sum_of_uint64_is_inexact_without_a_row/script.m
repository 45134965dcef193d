ds = tabularTextDatastore('a.csv', 'TextscanFormats', {'%u64'});
T = tall(ds);
t = gather(sum(T.x, 'native'))
s = gather(sum(T.x))
