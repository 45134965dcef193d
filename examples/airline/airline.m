% Delays of flights: the city is quoted, and 'NA' stands for a delay that is missing.
ds = tabularTextDatastore('flights.csv', 'TreatAsMissing', 'NA');
ds.SelectedVariableNames = {'UniqueCarrier', 'Dest', 'ArrDelay', 'DepDelay'};
T = tall(ds);

% How many flights there are, and how many came late.
late = T(T.ArrDelay > 0, :);
[flights, known, lateFlights, worst] = gather(height(T), height(T) - sum(isnan(T.ArrDelay)), height(late), max(T.ArrDelay))

% Delays by carrier, and the cities that late flights went to.
byCarrier = gather(groupsummary(T, 'UniqueCarrier', 'sum', 'ArrDelay'))
missing = gather(groupsummary(T, 'UniqueCarrier', 'nummissing', 'ArrDelay'))
cities = gather(unique(late.Dest))

% The greatest delay of each carrier once more, by mapreduce.
greatest = mapreduce(ds, @greatestOfBlock, @greatestOfAll)

function greatestOfBlock(data, ~, store)
  known = data(~isnan(data.ArrDelay), :);
  G = groupsummary(known, 'UniqueCarrier', 'max', 'ArrDelay');
  for k = 1:height(G)
    add(store, G.UniqueCarrier(k), G.max_ArrDelay(k));
  end
end

function greatestOfAll(carrier, delays, out)
  greatest = getnext(delays);
  while hasnext(delays)
    delay = getnext(delays);
    if delay > greatest
      greatest = delay;
    end
  end
  add(out, carrier, greatest);
end
