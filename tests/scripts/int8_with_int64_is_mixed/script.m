e = int8(1) == int64(1)
z = int8(1) + int64(1);
