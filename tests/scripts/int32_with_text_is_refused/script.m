a = int32(1) == 'a'
