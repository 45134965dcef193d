x = NaN(1)
