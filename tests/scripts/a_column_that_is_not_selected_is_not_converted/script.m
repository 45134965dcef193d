ds = tabularTextDatastore('a.csv', 'SelectedVariableNames', 'b', 'TextscanFormats', {'%f', '%f'});
T = tall(ds);
t = gather(T)
