a = int8(1) == 'a'
