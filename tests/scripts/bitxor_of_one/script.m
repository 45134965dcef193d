x = bitxor(int8(1))
