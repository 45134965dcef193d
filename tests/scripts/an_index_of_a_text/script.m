x = 'abc'(1)
