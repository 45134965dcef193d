ds = tabularTextDatastore('a.csv', 'TextscanFormats', {'%d8'});
T = tall(ds);
o = "native";
s = gather(sum(T.x, o))
