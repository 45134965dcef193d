a = int16(1) == 'a'
