e = uint8(1) == uint64(1)
z = uint8(1) + uint64(1);
