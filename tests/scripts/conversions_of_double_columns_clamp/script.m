ds = tabularTextDatastore('a.csv', 'TextscanFormats', {'%f'});
T = tall(ds);
[a, b, c, d, e, f, g, h] = gather(int8(T.x), int16(T.x), int32(T.x), int64(T.x), uint8(T.x), uint16(T.x), uint32(T.x), uint64(T.x))
