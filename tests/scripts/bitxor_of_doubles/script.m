x = bitxor(1, 2)
