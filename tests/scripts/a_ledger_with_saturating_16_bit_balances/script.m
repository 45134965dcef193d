ds = tabularTextDatastore('a.csv', 'TextscanFormats', {'%q', '%d16'}, 'ReadSize', READSIZE);
T = tall(ds);
[balance, last] = gather(cumsum(T.amount), sum(T.amount, 'native'))
G = gather(groupsummary(T, 'account', 'sumnative', 'amount'))
