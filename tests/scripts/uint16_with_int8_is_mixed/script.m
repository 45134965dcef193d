e = uint16(1) == int8(1)
z = uint16(1) + int8(1);
