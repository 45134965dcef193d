x = 1
break = 2
