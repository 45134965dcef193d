x = bitand(int8(1), true)
