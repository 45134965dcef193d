a = ~NaN
