gather(1, 2)
