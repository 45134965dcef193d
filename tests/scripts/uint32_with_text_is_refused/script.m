a = uint32(1) == 'a'
