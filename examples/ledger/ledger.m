% A ledger whose balances are kept in 16 bits: a sum that leaves the range stays at its end.
ds = tabularTextDatastore('ledger.csv', 'TextscanFormats', {'%u32', '%q', '%d16'});
T = tall(ds);

% The balance after each entry, the last one, and the sum that a wider class would give.
[balance, last, exact] = gather(cumsum(T.amount), sum(T.amount, 'native'), sum(T.amount))

% The balance of each account, in 16 bits and exactly.
native = gather(groupsummary(T, 'account', 'sumnative', 'amount'))
wide = gather(groupsummary(T, 'account', 'sum', 'amount'))

% Half of each amount of the second account: a tie goes away from zero.
half = gather(T.amount(T.account == 'rent') ./ 2)
