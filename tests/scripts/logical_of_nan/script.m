a = logical(NaN)
