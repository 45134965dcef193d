% Readings of one day in three files: temperatures in tenths of a degree, '-' where a sensor did not answer.
ds = tabularTextDatastore({'morning.csv', 'noon.csv', 'evening.csv'}, ...
    'Delimiter', ';', 'TreatAsMissing', '-', 'TextscanFormats', {'%d16', '%q', '%f', '%u8'});
T = tall(ds);

% The coldest and the warmest reading, and the readings that are missing.
[readings, coldest, warmest, lost] = gather(height(T), min(T.tenths), max(T.tenths), nnz(isnan(T.tenths)))

% Each sensor's warmest reading and the times that it did not answer; the first and the last readings of weak batteries.
warmestOfSensor = gather(groupsummary(T, 'sensor', 'max', 'tenths'))
lostOfSensor = gather(groupsummary(T, 'sensor', 'nummissing', 'tenths'))
weak = T(T.battery < 20, :);
[first, last] = gather(head(weak, 2), tail(weak, 2))

% How far each reading of the roof lies above the coldest one of all.
roof = T(T.site == 'roof', :);
above = gather(roof.tenths - min(T.tenths))
