x = bitand('a', int8(1))
