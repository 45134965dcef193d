x = bitand(1, 2)
