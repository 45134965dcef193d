x = 1
y = nosuch
z = $
