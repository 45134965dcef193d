ds = tabularTextDatastore('a.csv', 'SelectedVariableNames', {'y', 'x'}, 'TextscanFormats', {'%f', '%f'});
T = tall(ds);
t = gather(T)
