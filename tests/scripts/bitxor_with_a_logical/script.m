x = bitxor(int8(1), true)
