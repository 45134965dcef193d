x = bitand(int8(1))
