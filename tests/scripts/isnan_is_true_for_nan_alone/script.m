a = isnan(NaN)
b = isnan(0)
c = isnan(true)
d = isnan(9007199254740992)
