ds = tabularTextDatastore('a.csv', 'TextscanFormats', {'%u8'}, 'ReadSize', READSIZE);
T = tall(ds);
y = gather((T.p - 50) .* 2 + 10)
