x = strcmp('a', 1)
