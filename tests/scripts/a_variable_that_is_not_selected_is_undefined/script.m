ds = tabularTextDatastore('a.csv', 'SelectedVariableNames', 'b');
T = tall(ds);
x = T.a;
