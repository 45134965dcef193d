x = 'ab
