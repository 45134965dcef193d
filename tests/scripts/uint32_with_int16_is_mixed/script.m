e = uint32(1) == int16(1)
z = uint32(1) + int16(1);
