x = bitor(true, true)
