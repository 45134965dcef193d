ds = tabularTextDatastore('a.csv', 'ReadSize', 1, 'TextscanFormats', {'%d8'}, 'Delimiter', ';', 'TreatAsMissing', 'NA', 'SelectedVariableNames', 'x', 'ReadVariableNames', true);
T = tall(ds);
t = gather(T)
