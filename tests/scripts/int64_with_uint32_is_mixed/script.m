e = int64(1) == uint32(1)
z = int64(1) + uint32(1);
