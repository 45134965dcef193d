ds = tabularTextDatastore({'a.csv', 'b.csv'}, 'TextscanFormats', {'%f', '%f'}, 'ReadSize', READSIZE);
r = mapreduce(ds, @m, @m)
function m(~, ~, ~)
end
