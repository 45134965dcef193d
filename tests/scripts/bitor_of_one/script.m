x = bitor(int8(1))
