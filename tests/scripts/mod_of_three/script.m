x = mod(1, 2, 3)
