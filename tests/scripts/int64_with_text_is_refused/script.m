a = int64(1) == 'a'
