ds = tabularTextDatastore('a.csv', 'TextscanFormats', {'%f'}, 'ReadSize', READSIZE);
T = tall(ds);
gather(sum(T.x))
ans .* 2
y = gather(T.x - ans)
ans
