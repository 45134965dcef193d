x = 1
catch = 2
