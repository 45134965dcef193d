x = mod(1)
