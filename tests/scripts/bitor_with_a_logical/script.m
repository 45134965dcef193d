x = bitor(int8(1), true)
