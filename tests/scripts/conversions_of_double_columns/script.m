ds = tabularTextDatastore('a.csv', 'TextscanFormats', {'%f'});
T = tall(ds);
[a, b, c, d] = gather(int8(T.x), uint8(T.x), int16(T.x), logical(T.x + 0 .* T.x))
