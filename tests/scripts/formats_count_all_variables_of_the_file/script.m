ds = tabularTextDatastore('a.csv', 'SelectedVariableNames', 'b', 'TextscanFormats', {'%q', '%d8'});
T = tall(ds);
t = gather(T)
