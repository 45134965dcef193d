x = int8(5)(1)
