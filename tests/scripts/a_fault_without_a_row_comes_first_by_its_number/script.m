ds = tabularTextDatastore('a.csv', 'TextscanFormats', {'%f'}, 'ReadSize', READSIZE);
T = tall(ds);
a = T.x ./ 2;
b = sum(T.x .* 9007199254740992);
[b, a] = gather(b, a)
