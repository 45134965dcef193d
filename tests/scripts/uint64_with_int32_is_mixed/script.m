e = uint64(1) == int32(1)
z = uint64(1) + int32(1);
