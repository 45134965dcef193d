x = 'ab
y = 1
