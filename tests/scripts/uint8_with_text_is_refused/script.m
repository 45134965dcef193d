a = uint8(1) == 'a'
