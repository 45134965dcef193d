a = uint16(1) == 'a'
