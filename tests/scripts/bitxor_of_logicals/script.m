x = bitxor(true, true)
