e = int16(1) == uint8(1)
z = int16(1) + uint8(1);
