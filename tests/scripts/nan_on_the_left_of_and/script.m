a = NaN & false
