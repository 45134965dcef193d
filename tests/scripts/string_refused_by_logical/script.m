x = logical('1')
