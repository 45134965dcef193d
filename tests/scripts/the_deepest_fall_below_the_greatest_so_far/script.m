ds = tabularTextDatastore({'a.csv', 'b.csv'}, 'TextscanFormats', {'%d32'}, 'ReadSize', READSIZE);
T = tall(ds);
fall = T.x - cummax(T.x);
[fall, deepest, where] = gather(fall, min(fall), T.x(fall == min(fall)))
