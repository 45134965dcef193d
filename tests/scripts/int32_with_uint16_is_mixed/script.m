e = int32(1) == uint16(1)
z = int32(1) + uint16(1);
