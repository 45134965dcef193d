x = int8('1')
