files = {'b.csv', 'a.csv'};
names = {'y'};
gone = ["-", 'none'];
ds = tabularTextDatastore(files, 'TreatAsMissing', gone, 'SelectedVariableNames', names, 'ReadSize', READSIZE);
T = tall(ds);
t = gather(T)
