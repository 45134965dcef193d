x = bitand(true, true)
