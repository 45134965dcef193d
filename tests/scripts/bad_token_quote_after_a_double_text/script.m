x = "a"'b'
