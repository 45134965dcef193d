x = hasnext(1)
