ds = tabularTextDatastore('a.csv', 'TextscanFormats', {'%f'}, 'ReadSize', 1);
r = mapreduce(ds, @m, @q)
function m(~, ~, ~)
  x = 1;
end
function q(~, ~, ~)
  x = 1;
end
