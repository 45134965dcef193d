a = min(NaN)
