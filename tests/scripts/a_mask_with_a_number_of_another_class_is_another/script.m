ds = tabularTextDatastore('a.csv', 'TextscanFormats', {'%f', '%d8', '%q'}, 'ReadSize', READSIZE);
T = tall(ds);
y = T.x(T.x > int8(2)) - T.x(T.x > 2);
