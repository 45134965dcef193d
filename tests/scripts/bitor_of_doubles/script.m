x = bitor(1, 2)
