a = uint64(1) == 'a'
