x = sum(1,)
