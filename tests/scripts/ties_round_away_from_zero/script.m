ds = tabularTextDatastore('a.csv', 'TextscanFormats', {'%d32'});
T = tall(ds);
[a, b] = gather(T.x ./ 2, T.x ./ 0)
